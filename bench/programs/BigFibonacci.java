// links
class BigFibonacci {
    // 60 bits in each long, the lowest first
    static final long MASK = (1L << 60) - 1;

    static long[] sum(long[] a, long[] b) {
        int n = a.length > b.length ? a.length : b.length;
        long[] r = new long[n + 1]; long carry = 0;
        for (int i = 0; i < n; i++) { long v = (i < a.length ? a[i] : 0) + (i < b.length ? b[i] : 0) + carry; r[i] = v & MASK; carry = v >>> 60; }
        r[n] = carry;
        if (carry != 0) return r;
        long[] cut = new long[n]; for (int i = 0; i < n; i++) cut[i] = r[i];
        return cut;
    }

    // divides in place, and gives the remainder; 10 goes into 60 bits by two halves
    static int divide(long[] a, int by) {
        long rest = 0;
        for (int i = a.length - 1; i >= 0; i--) {
            long high = rest << 30 | a[i] >>> 30, low = (high % by) << 30 | a[i] & (1L << 30) - 1;
            a[i] = (high / by) << 30 | low / by; rest = low % by;
        }
        return (int) rest;
    }

    static boolean isZero(long[] a) { for (long v : a) if (v != 0) return false; return true; }

    static String decimal(long[] a) {
        long[] rest = new long[a.length]; for (int i = 0; i < a.length; i++) rest[i] = a[i];
        char[] digits = new char[20 * a.length]; int n = 0;
        do digits[n++] = (char) ('0' + divide(rest, 10)); while (!isZero(rest));
        StringBuilder s = new StringBuilder(); while (n > 0) s.append(digits[--n]);
        return s.toString();
    }

    static String hexadecimal(long[] a) {
        String s = ""; for (int i = a.length - 1; i >= 0; i--) for (int k = 56; k >= 0; k -= 4) { int d = (int) (a[i] >>> k & 15); if (d != 0 || !s.isEmpty()) s += (char) (d < 10 ? '0' + d : 'a' + d - 10); }
        return s;
    }

    public static void main(String[] args) {
        long[] a = {0}, b = {1};
        for (int n = 0; n <= 600; n++) { if (n % 100 == 0 || n == 93) System.out.println(n + ": " + decimal(a) + " " + hexadecimal(a)); long[] c = sum(a, b); a = b; b = c; }
        System.out.println(a.length);
    }
}
