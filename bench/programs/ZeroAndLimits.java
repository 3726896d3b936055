// links
// Each operation of int and long at its edges (JVMS 6.5), of values that the compiler doesn't know.
class ZeroAndLimits {
    static final int MIN = Integer.MIN_VALUE, MAX = Integer.MAX_VALUE;
    static final long LEAST = Long.MIN_VALUE, MOST = Long.MAX_VALUE;

    static void ints(int a, int b) {
        String divided;
        try { divided = a / b + " " + a % b; } catch (ArithmeticException e) { divided = "by zero"; }
        System.out.println((a + b) + " " + (a - b) + " " + a * b + " " + divided + " " + (a & b) + " " + (a | b) + " " + (a ^ b));
    }

    static void longs(long a, long b) {
        String divided;
        try { divided = a / b + " " + a % b; } catch (ArithmeticException e) { divided = "by zero"; }
        System.out.println((a + b) + " " + (a - b) + " " + a * b + " " + divided + " " + (a & b) + " " + (a | b) + " " + (a ^ b));
    }

    static void intShifts(int a, int count) { System.out.println((a << count) + " " + (a >> count) + " " + (a >>> count)); }
    static void longShifts(long a, int count) { System.out.println((a << count) + " " + (a >> count) + " " + (a >>> count)); }
    static int compared(long a, long b) { return a < b ? -1 : a == b ? 0 : 1; }
    static void narrowed(int a) { System.out.println((byte) a + " " + (int) (char) a + " " + (short) a); }

    public static void main(String[] args) {
        ints(MAX, 1); ints(MIN, 1); ints(65536, 65536); ints(MIN, -1); ints(-7, 2); ints(7, -2); ints(7, 0); ints(-4, 7); ints(-4, 1); ints(-1, 5);
        longs(MOST, 1); longs(LEAST, 1); longs(1L << 32, 1L << 32); longs(LEAST, -1); longs(-7, 2); longs(7, 0); longs(-4, 7); longs(-4, 1); longs(-1, 5);
        intShifts(1, 33); intShifts(1, 32); intShifts(1, -1); intShifts(3, 63); intShifts(-7, 1); intShifts(-7, -1); intShifts(-7, 28); intShifts(-7, 64);
        longShifts(1, 65); longShifts(1, 32); longShifts(1, 64); longShifts(1, -1); longShifts(-7, 64); longShifts(-7, 63); longShifts(-7, 60);
        System.out.println(compared(1, 2) + " " + compared(2, 2) + " " + compared(2, -1) + " " + compared(LEAST, MOST));
        narrowed(128); narrowed(200); narrowed(255); narrowed(-1); narrowed(65536); narrowed(65535); narrowed(-32769);
    }
}
