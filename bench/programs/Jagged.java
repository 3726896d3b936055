// links
class Jagged {
    static String show(int[] a) { String s = "["; for (int i = 0; i < a.length; i++) s += (i > 0 ? " " : "") + a[i]; return s + "]"; }

    static int[][] pascal(int n) {
        int[][] rows = new int[n][];
        for (int i = 0; i < n; i++) {
            rows[i] = new int[i + 1]; rows[i][0] = rows[i][i] = 1;
            for (int k = 1; k < i; k++) rows[i][k] = rows[i - 1][k - 1] + rows[i - 1][k];
        }
        return rows;
    }

    static long total(long[][][] cube) { long t = 0; for (long[][] plane : cube) for (long[] row : plane) if (row != null) for (long v : row) t += v; return t; }

    static int depth(Object o) { return o instanceof Object[] ? 1 + (((Object[]) o).length == 0 ? 0 : depth(((Object[]) o)[0])) : 0; }

    public static void main(String[] args) {
        int[][] p = pascal(8);
        for (int i = 0; i < p.length; i++) System.out.println(show(p[i]));
        long[][][] cube = new long[3][4][5];
        for (int i = 0; i < 3; i++) for (int j = 0; j < 4; j++) for (int k = 0; k < 5; k++) cube[i][j][k] = (i * 100 + j * 10 + k) * 10000000000L;
        System.out.println(total(cube)); cube[1][2] = null; System.out.println(total(cube)); cube[2] = new long[][]{{1}, {2, 3}}; System.out.println(total(cube));
        char[][] board = new char[3][3];
        for (int i = 0; i < 9; i++) board[i / 3][i % 3] = i % 2 == 0 ? 'x' : 'o';
        for (char[] row : board) { for (char c : row) System.out.print(c); System.out.println(); }
        byte[][][] holes = new byte[2][3][];
        System.out.println(holes[1][2] == null); holes[1][2] = new byte[]{-1, (byte) 200}; System.out.println(holes[1][2][1] + holes[1].length);
        Object[][] mixed = {{"a", new int[]{1}}, {}, new String[]{"s"}};
        System.out.println(mixed[0].length + mixed[1].length + mixed[2].length + " " + depth(mixed) + depth(new int[1][1][1]) + depth(new int[0][2]) + depth("x"));
        try { mixed[2][0] = new Object(); } catch (ArrayStoreException e) { System.out.println("no String"); }
        try { mixed[2] = new Integer2d[1]; System.out.println(mixed[2].length); mixed[1][0] = 'c' + ""; } catch (ArrayIndexOutOfBoundsException e) { System.out.println("empty row"); }
        boolean[][] b = new boolean[2][2]; b[0][1] = true; b[1][0] ^= b[0][1]; System.out.println(b[0][0] + " " + b[1][0]);
        int[][] same = {p[3], p[3]}; same[0][1]++; System.out.println(show(same[1]) + show(p[3]) + (same[0] == same[1]));
    }

    static class Integer2d { }
}
