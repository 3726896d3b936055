// links
class MatrixPower {
    static final long MODULUS = 1000000007L;

    static long[][] times(long[][] a, long[][] b) {
        int n = a.length, m = b[0].length;
        long[][] c = new long[n][m];
        for (int i = 0; i < n; i++) for (int j = 0; j < m; j++) { long s = 0; for (int k = 0; k < b.length; k++) s = (s + a[i][k] * b[k][j]) % MODULUS; c[i][j] = s; }
        return c;
    }

    static long[][] power(long[][] a, long n) {
        long[][] r = new long[a.length][a.length];
        for (int i = 0; i < a.length; i++) r[i][i] = 1;
        for (; n > 0; n >>= 1) { if ((n & 1) == 1) r = times(r, a); a = times(a, a); }
        return r;
    }

    // by elimination without fractions: each division comes out even
    static long determinant(long[][] m) {
        int n = m.length; long sign = 1, last = 1;
        for (int k = 0; k < n - 1; k++) {
            int p = k; while (p < n && m[p][k] == 0) p++;
            if (p == n) return 0;
            if (p != k) { long[] t = m[p]; m[p] = m[k]; m[k] = t; sign = -sign; }
            for (int i = k + 1; i < n; i++) for (int j = k + 1; j < n; j++) m[i][j] = (m[i][j] * m[k][k] - m[i][k] * m[k][j]) / last;
            last = m[k][k];
        }
        return sign * m[n - 1][n - 1];
    }

    static int[][] turned(int[][] a) { int[][] t = new int[a[0].length][a.length]; for (int i = 0; i < a.length; i++) for (int j = 0; j < a[0].length; j++) t[j][a.length - 1 - i] = a[i][j]; return t; }

    public static void main(String[] args) {
        long[][] fib = {{1, 1}, {1, 0}};
        for (long n : new long[]{1, 2, 10, 90, 1000, 1000000000000L}) System.out.println(power(fib, n)[0][1]);
        System.out.println(determinant(new long[][]{{2, 0, 1}, {1, 3, 2}, {1, 1, 4}}) + " " + determinant(new long[][]{{0, 2}, {3, 4}}) + " " + determinant(new long[][]{{1, 2}, {2, 4}}));
        long[][] hilbert = new long[6][6]; for (int i = 0; i < 6; i++) for (int j = 0; j < 6; j++) hilbert[i][j] = 27720 / (i + j + 1);
        System.out.println(determinant(hilbert));
        int[][] a = {{1, 2, 3}, {4, 5, 6}}; String s = "";
        for (int k = 0; k < 4; k++, a = turned(a)) for (int[] row : a) { for (int v : row) s += v; s += "/"; }
        System.out.println(s);
        try { times(new long[2][3], new long[2][2]); } catch (ArrayIndexOutOfBoundsException e) { System.out.println("rows and columns"); }
        System.out.println(times(new long[][]{{1, 2, 3}}, new long[][]{{4}, {5}, {6}})[0][0]);
    }
}
