// links
class BigFactorials {
    // nine decimal digits in each int, the lowest first
    static final int BASE = 1000000000;
    final int[] limbs; final int size;
    BigFactorials(int[] limbs, int size) { this.limbs = limbs; this.size = size; }
    static BigFactorials of(int n) { return new BigFactorials(new int[]{n % BASE, n / BASE}, n < BASE ? 1 : 2); }

    BigFactorials times(int by) {
        int[] r = new int[size + 2]; long carry = 0; int n = 0;
        for (; n < size || carry > 0; n++) { long v = carry + (n < size ? (long) limbs[n] * by : 0); r[n] = (int) (v % BASE); carry = v / BASE; }
        return new BigFactorials(r, n);
    }

    BigFactorials times(BigFactorials by) {
        int[] r = new int[size + by.size];
        for (int i = 0; i < size; i++) {
            long carry = 0;
            for (int j = 0; j < by.size; j++) { long v = r[i + j] + carry + (long) limbs[i] * by.limbs[j]; r[i + j] = (int) (v % BASE); carry = v / BASE; }
            r[i + by.size] = (int) carry;
        }
        int n = r.length; while (n > 1 && r[n - 1] == 0) n--;
        return new BigFactorials(r, n);
    }

    int remainder(int by) { long r = 0; for (int i = size - 1; i >= 0; i--) r = (r * BASE + limbs[i]) % by; return (int) r; }
    int digitSum() { int s = 0; for (int i = 0; i < size; i++) for (int v = limbs[i]; v > 0; v /= 10) s += v % 10; return s; }

    @Override public String toString() {
        StringBuilder s = new StringBuilder();
        for (int i = size - 1; i >= 0; i--) for (int p = BASE / 10; p > 0; p /= 10) { int d = limbs[i] / p % 10; if (d != 0 || s.length() > 0 || i == 0 && p == 1) s.append(d); }
        return s.toString();
    }

    static BigFactorials power(BigFactorials b, int n) { BigFactorials r = of(1); for (; n > 0; n >>= 1) { if ((n & 1) == 1) r = r.times(b); b = b.times(b); } return r; }

    public static void main(String[] args) {
        BigFactorials f = of(1);
        for (int n = 1; n <= 60; n++) { f = f.times(n); if (n % 10 == 0) System.out.println(n + "! = " + f); }
        System.out.println(f.digitSum() + " " + f.remainder(61) + " " + f.remainder(1000003) + " " + f.size);
        System.out.println(power(of(2), 200)); System.out.println(power(of(1234567890), 9)); System.out.println(power(of(7), 100).digitSum()); System.out.println(of(0).times(of(5)));
    }
}
