// links
class PowerModulo {
    // by doubling, so that nothing passes 63 bits
    static long times(long a, long b, long m) { long r = 0; for (a %= m; b > 0; b >>= 1) { if ((b & 1) != 0) { r += a; if (r >= m) r -= m; } a += a; if (a >= m) a -= m; } return r; }
    static long power(long a, long n, long m) { long r = 1 % m; for (; n > 0; n >>= 1) { if ((n & 1) != 0) r = times(r, a, m); a = times(a, a, m); } return r; }
    static long gcd(long a, long b) { return b == 0 ? a : gcd(b, a % b); }

    static long inverse(long a, long m) {
        long r = m, s = a % m, x = 0, y = 1;
        while (s != 0) { long q = r / s, t = r - q * s; r = s; s = t; t = x - q * y; x = y; y = t; }
        if (r != 1) throw new ArithmeticException(a + " has none");
        return x < 0 ? x + m : x;
    }

    static long root(long n) { long low = 0, high = 3037000500L; while (high - low > 1) { long x = (low + high) / 2; if (x * x <= n) low = x; else high = x; } return low; }

    static long crt(long[] rests, long[] moduli) {
        long x = 0, m = 1;
        for (int i = 0; i < rests.length; i++) { long d = (rests[i] - x) % moduli[i]; if (d < 0) d += moduli[i]; x += m * times(d, inverse(m, moduli[i]), moduli[i]); m *= moduli[i]; }
        return x;
    }

    public static void main(String[] args) {
        long m = 4611686018427387847L;
        System.out.println(power(2, 62, m) + " " + power(3, m - 1, m) + " " + power(10, 18, 97) + " " + power(7, 0, 1));
        for (long a : new long[]{3, 10, 12, 123456789}) try { long i = inverse(a, 1000000008L); System.out.println(i + " " + times(i, a, 1000000008L)); } catch (ArithmeticException e) { System.out.println(e.getMessage()); }
        System.out.println(gcd(1L << 40, 6L * 6 * 6 * 6) + " " + gcd(Long.MAX_VALUE, 7) + " " + gcd(0, 5));
        System.out.println(root(0) + " " + root(99) + " " + root(Long.MAX_VALUE));
        System.out.println(crt(new long[]{2, 3, 2}, new long[]{3, 5, 7}) + " " + crt(new long[]{1, 0, 6, 4}, new long[]{1009, 64, 729, 625}));
    }
}
