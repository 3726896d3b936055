// links
class DeadCode {
    static int f(boolean b) { while (true) { if (b) return 1; else throw new RuntimeException(); } }
    static int g() { for (;;) { try { return f(true); } finally { continue; } } }
    static int h(int n) { if (false) n++; do { if (n > 3) return n; n++; } while (true); }
    public static void main(String[] args) { System.out.println(f(true) + h(0)); if (args.length > 100) System.out.println(g()); }
}
