// links
class Matrix {
    final long[][] m; Matrix(long[][] m) { this.m = m; }
    Matrix times(Matrix o) { int n = m.length; long[][] r = new long[n][n]; for (int i = 0; i < n; i++) for (int j = 0; j < n; j++) { long s = 0; for (int k = 0; k < n; k++) s += m[i][k] * o.m[k][j]; r[i][j] = s; } return new Matrix(r); }
    Matrix power(int e) { Matrix r = new Matrix(new long[][]{{1, 0}, {0, 1}}), b = this; for (; e > 0; e >>= 1) { if ((e & 1) == 1) r = r.times(b); b = b.times(b); } return r; }
    public static void main(String[] args) { System.out.println(new Matrix(new long[][]{{1, 1}, {1, 0}}).power(50).m[0][1]); }
}
