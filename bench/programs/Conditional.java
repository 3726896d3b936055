// links
class Conditional {
    static Object pick(int n, Object a, String b) { return n > 0 ? n > 5 ? a : b : n < -5 ? null : new int[]{n}; }
    static boolean and(boolean a, boolean b) { return (a & b) | (a ^ b) & !(a == b); }
    public static void main(String[] args) { boolean t = args.length == 0; System.out.println(pick(t ? 6 : 2, "x", t ? "y" : null)); System.out.println(and(t, !t)); long r = t ? 1 : 2L; System.out.println(r); }
}
