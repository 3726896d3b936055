// links
class Interfaces {
    interface Named { String name(); default String greet() { return "hi " + name(); } static Named of(String s) { return new Plain(s); } int LIMIT = 3; }
    interface Loud extends Named { default String greet() { return Named.super.greet() + "!"; } }
    static class Plain implements Named { final String n; Plain(String n) { this.n = n; } public String name() { return n; } }
    static class Shout extends Plain implements Loud { Shout() { super("me"); } }
    public static void main(String[] args) { System.out.println(Named.of("you").greet()); System.out.println(new Shout().greet()); System.out.println(Named.LIMIT); }
}
