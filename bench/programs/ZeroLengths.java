// links
class ZeroLengths {
    static String shape(Object o) {
        String s = "";
        while (o instanceof Object[]) {
            Object[] a = (Object[]) o;
            s += a.length + " ";
            o = a.length == 0 ? null : a[a.length - 1];
        }
        return o instanceof int[] ? s + ((int[]) o).length : s + (o == null ? "null" : "other");
    }

    static String made(int a, int b, int c, int d) {
        try { return shape(new int[a][b][c][d]); } catch (NegativeArraySizeException e) { return "negative"; }
    }

    // the length 0 in each dimension, before and behind lengths whose product passes 2^32
    static void zeros(int n) {
        System.out.println(made(0, n, n, n));
        System.out.println(made(2, 0, n, n));
        System.out.println(made(2, 3, 0, n));
        System.out.println(made(2, 3, 4, 0));
        System.out.println(made(0, 0, n, 0));
        System.out.println(made(70, 0, n, n));
    }

    public static void main(String[] args) {
        System.out.println(new int[0][70000][70000][70000].length);
        zeros(70000); zeros(Integer.MAX_VALUE); zeros(65536); zeros(1000);
        long[][][] longs = new long[3][0][Integer.MAX_VALUE];
        System.out.println(longs.length + " " + longs[2].length);
        System.out.println(new String[0][Integer.MAX_VALUE][Integer.MAX_VALUE][].length);
        System.out.println(new byte[1][1][1][1][0][Integer.MAX_VALUE][Integer.MAX_VALUE][0][0][0].length);
        // a negative length is thrown for, also behind a length 0
        System.out.println(made(0, -1, 70000, 70000));
        System.out.println(made(0, 70000, 70000, -1));
    }
}
