// links
class LocalClasses {
    int field = 2;
    int go(final int k) { class Step { int n; Step(int n) { this.n = n; } int run() { return n * k + field; } } return new Step(3).run() + new Step(4).run(); }
    public static void main(String[] args) { System.out.println(new LocalClasses().go(5)); }
}
