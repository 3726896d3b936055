// links
class RadixSort {
    static void byDigit(long[] a, long[] spare, int shift) {
        int[] count = new int[257];
        for (long v : a) count[(int) (v >>> shift & 0xff) + 1]++;
        for (int i = 0; i < 256; i++) count[i + 1] += count[i];
        for (long v : a) spare[count[(int) (v >>> shift & 0xff)]++] = v;
    }

    static long[] sorted(long[] a) {
        long[] from = new long[a.length], to = new long[a.length];
        for (int i = 0; i < a.length; i++) from[i] = a[i] ^ Long.MIN_VALUE;
        for (int shift = 0; shift < 64; shift += 8) { byDigit(from, to, shift); long[] t = from; from = to; to = t; }
        for (int i = 0; i < from.length; i++) from[i] ^= Long.MIN_VALUE;
        return from;
    }

    public static void main(String[] args) {
        long[] a = new long[40];
        long x = 88172645463325252L;
        for (int i = 0; i < a.length; i++) { x ^= x << 13; x ^= x >>> 7; x ^= x << 17; a[i] = i % 3 == 0 ? x : i % 3 == 1 ? x >> 40 : x >>> 60; }
        a[5] = Long.MIN_VALUE; a[6] = Long.MAX_VALUE; a[7] = 0; a[8] = -1;
        for (long v : sorted(a)) System.out.println(v);
    }
}
