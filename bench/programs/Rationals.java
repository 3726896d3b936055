// links
class Rationals {
    final long top, bottom;
    static final Rationals ONE = new Rationals(1, 1);
    Rationals(long top, long bottom) {
        if (bottom == 0) throw new IllegalArgumentException(top + " over 0");
        long g = gcd(top < 0 ? -top : top, bottom < 0 ? -bottom : bottom);
        if (bottom < 0) g = -g;
        this.top = top / g; this.bottom = bottom / g;
    }
    static long gcd(long a, long b) { while (b != 0) { long t = a % b; a = b; b = t; } return a; }
    Rationals plus(Rationals o) { return new Rationals(top * o.bottom + o.top * bottom, bottom * o.bottom); }
    Rationals times(Rationals o) { return new Rationals(top * o.top, bottom * o.bottom); }
    Rationals minus() { return new Rationals(-top, bottom); }
    Rationals inverse() { return new Rationals(bottom, top); }
    @Override public boolean equals(Object o) { return o instanceof Rationals && ((Rationals) o).top == top && ((Rationals) o).bottom == bottom; }
    @Override public int hashCode() { return (int) (31 * top + bottom); }
    @Override public String toString() { return bottom == 1 ? "" + top : top + "/" + bottom; }

    static String continued(Rationals r) {
        String s = "["; long a = r.top, b = r.bottom;
        while (b != 0) { long q = a / b; s += q + (a % b != 0 ? ", " : "]"); long t = a % b; a = b; b = t; }
        return s;
    }

    public static void main(String[] args) {
        Rationals h = new Rationals(0, 1);
        for (int n = 1; n <= 20; n++) h = h.plus(new Rationals(1, n));
        System.out.println(h + " " + continued(h));
        Rationals e = ONE, term = ONE;
        for (int n = 1; n < 15; n++) { term = term.times(new Rationals(1, n)); e = e.plus(term); }
        System.out.println(e + " " + continued(e));
        Rationals half = new Rationals(-2, -4), other = new Rationals(1, 2);
        System.out.println(half.equals(other) + " " + half.equals("1/2") + " " + (half.hashCode() == other.hashCode()) + " " + half.minus().plus(other) + " " + half.inverse());
        try { half.plus(other.minus()).inverse(); } catch (IllegalArgumentException x) { System.out.println(x.getMessage()); }
        System.out.println(new Rationals(3, -9).hashCode() + " " + new Rationals(-3, 9) + " " + new Rationals(Long.MAX_VALUE, 7));
    }
}
