// links
class BitTricks {
    static int count(int n) { n -= n >>> 1 & 0x55555555; n = (n & 0x33333333) + (n >>> 2 & 0x33333333); n = n + (n >>> 4) & 0x0f0f0f0f; return n * 0x01010101 >>> 24; }
    static int count(long n) { return count((int) n) + count((int) (n >>> 32)); }
    static int reversed(int n) { n = n >>> 1 & 0x55555555 | (n & 0x55555555) << 1; n = n >>> 2 & 0x33333333 | (n & 0x33333333) << 2; n = n >>> 4 & 0x0f0f0f0f | (n & 0x0f0f0f0f) << 4; return n >>> 24 | n >>> 8 & 0xff00 | n << 8 & 0xff0000 | n << 24; }
    static int leading(long n) { int k = 0; for (int s = 32; s > 0; s >>= 1) if (n >>> 64 - s == 0) { k += s; n <<= s; } return n == 0 ? 64 : k; }
    static long spread(int n) { long r = n & 0xffffffffL; for (int s = 16; s > 0; s >>= 1) r = (r | r << s) & mask(s); return r; }
    static long mask(int s) { long m = 0; for (int k = 0; k < 64; k += 2 * s) m |= ((1L << s) - 1) << k; return m; }
    static String binary(int n) { String s = ""; do s = (n & 1) + s; while ((n >>>= 1) != 0); return s; }
    static int sign(int n) { return n >> 31 | -n >>> 31; }
    static int absolute(int n) { int m = n >> 31; return (n ^ m) - m; }
    static int mean(int a, int b) { return (a & b) + ((a ^ b) >> 1); }

    public static void main(String[] args) {
        for (int n : new int[]{0, 1, -1, 6, 0x80000000, 0x12345678, -2024}) System.out.println(count(n) + " " + reversed(n) + " " + binary(n) + " " + sign(n) + " " + absolute(n) + " " + mean(n, 9) + " " + spread(n));
        for (long n : new long[]{0, 1, -1, 1L << 40, 0x123456789abcdefL}) System.out.println(count(n) + " " + leading(n) + " " + (n & -n) + " " + (n ^ n >>> 1) + " " + (n << 60 >> 60) + " " + (n << 60 >>> 60) + " " + ~n);
        int flags = 0; flags |= 1 << 3; flags ^= 1 << 31; flags &= ~(1 << 3); System.out.println(flags); boolean t = true; t &= !t; t |= flags < 0; t ^= false; System.out.println(t);
    }
}
