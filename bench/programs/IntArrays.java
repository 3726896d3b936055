// links
class IntArrays {
    static int sum(int... xs) { int s = 0; for (int x : xs) s += x; return s; }
    public static void main(String[] args) {
        int[] a = {3, 1, 2}; byte[] b = new byte[4]; short[] c = {1}; char[] d = {'x', 'y'}; boolean[] e = new boolean[2]; long[] f = {1L << 40, 5};
        b[1] = (byte) 200; c[0]++; d[1] += 2; e[0] = true; f[1] *= f[0]; a[a[1]] <<= 2;
        System.out.println(sum(a) + sum() + b[1] + c[0] + d[1] + (e[0] ? 1 : 0) + (int) f[1] + a.length);
    }
}
