// links
class Inner {
    private int secret = 5;
    class Part { int twice() { return secret * 2; } class Deep { int sum() { return secret + twice() + Part.this.twice(); } } }
    static class Nested { private int hidden = 9; private static int count; private int up() { return hidden += ++count; } }
    public static void main(String[] args) {
        Inner i = new Inner(); Inner.Part p = i.new Part(); Inner.Part.Deep d = p.new Deep(); i.secret++;
        System.out.println(d.sum() + new Nested().up() + new Nested().hidden);
    }
}
