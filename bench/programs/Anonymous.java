// links
class Anonymous {
    interface Op { int apply(int a, int b); }
    static int fold(Op op, int[] xs) { int r = xs[0]; for (int i = 1; i < xs.length; i++) r = op.apply(r, xs[i]); return r; }
    public static void main(final String[] args) {
        final int base = args.length + 1;
        System.out.println(fold(new Op() { public int apply(int a, int b) { return a * b + base; } }, new int[]{1, 2, 3}));
        Object o = new Object() { int n = base; public String toString() { return "anon" + n; } };
        System.out.println(o);
    }
}
