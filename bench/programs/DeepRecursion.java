// links
class DeepRecursion {
    static int f(int n) { return n == 0 ? 0 : f(n - 1) + 1; }
    static boolean isEven(int n) { return n == 0 || isOdd(n - 1); }
    static boolean isOdd(int n) { return n != 0 && isEven(n - 1); }
    static int ackermann(int m, int n) { return m == 0 ? n + 1 : n == 0 ? ackermann(m - 1, 1) : ackermann(m - 1, ackermann(m, n - 1)); }
    static long forEver(long a, long b) { return forEver(b, a + b) ^ a; }
    private int calls;
    int down() { calls++; return down() + calls; }
    static int caught;

    static int rescue(int n) {
        try { return rescue(n + 1) + 1; } catch (StackOverflowError e) { caught++; return 0; }
    }

    public static void main(String[] args) {
        System.out.println(f(1500));
        System.out.println(isEven(1001) + " " + isOdd(1001));
        System.out.println(ackermann(2, 30));
        try { forEver(0, 1); System.out.println("back"); } catch (StackOverflowError e) { System.out.println("too deep"); }
        DeepRecursion d = new DeepRecursion();
        try { d.down(); } catch (StackOverflowError e) { System.out.println(d.calls > 1500); }
        System.out.println(rescue(0) > 1500);
        System.out.println(caught);
        for (int i = 0; i < 3; i++) try { f(-1); } catch (StackOverflowError e) { System.out.println(f(100 + i)); }
        try { int[] big = new int[Integer.MAX_VALUE]; System.out.println(big.length); } catch (OutOfMemoryError e) { System.out.println("too large"); }
    }
}
