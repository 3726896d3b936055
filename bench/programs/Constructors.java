// links
class Constructors {
    final int a; final long b;
    Constructors(int a, long b) { this.a = a; this.b = b; }
    Constructors(int a) { this(a, a > 0 ? a * 2L : 0L); }
    Constructors(boolean x, boolean y) { this(x && y ? 1 : x || y ? 2 : 3); }
    Constructors() { this(pick(new int[]{4, 5}, true)); }
    static int pick(int[] xs, boolean first) { return first ? xs[0] : xs[1]; }
    public static void main(String[] args) { System.out.println(new Constructors().b + new Constructors(true, false).a + new Constructors(false, args != null).b); }
}
