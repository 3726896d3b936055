// links
class ConstructorOrder {
    static String trace = "";
    static int log(String s, int v) { trace += s; return v; }

    static class Base {
        int a = log("a", 1);
        { log("{", 0); }
        Base() { this(5); log("B", 0); }
        Base(int n) { a += n; log("b", 0); describe(); }
        void describe() { log("d", 0); }
        @Override public String toString() { return "base " + a; }
    }

    static class Derived extends Base {
        int c = log("c", 3);
        final int d;
        String text = "set";
        Derived() { super(); d = log("D", 4); }
        Derived(int n) { super(n * 2); d = n; log("e", 0); }
        @Override void describe() { log("(" + text + c + ")", 0); }
        @Override public String toString() { return super.toString() + " derived " + c + d + text; }
    }

    static class Last extends Derived {
        Last(boolean b) { super(b ? log("x", 8) : log("y", 9)); }
    }

    static void show(Object o) { System.out.println(trace + " " + o); trace = ""; }

    public static void main(String[] args) {
        show(new Base()); show(new Base(2)); show(new Derived()); show(new Derived(7)); show(new Last(true)); show(new Last(false));
    }
}
