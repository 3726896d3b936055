// links
class Locals {
    static int many(int a, long b, int c, long d, byte e, short f, char g, boolean h, Object o, int[] p) {
        int q = a + c, r = q + e, s = r + f; long t = b + d; int u = g, v = h ? 1 : 0, w = p.length;
        Object x = o, y = x, z = y;
        return z == null ? q + r + s + (int) t + u + v + w : 0;
    }
    public static void main(String[] args) {
        System.out.println(many(1, 2, 3, 4, (byte) 5, (short) 6, 'g', true, null, new int[8]));
    }
}
