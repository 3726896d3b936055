// links
class Grids {
    public static void main(String[] args) {
        int[][] g = new int[3][5]; long[][][] h = new long[2][2][]; h[1][0] = new long[]{1, 2};
        for (int i = 0; i < g.length; i++) for (int j = 0; j < g[i].length; j++) g[i][j] = i * j;
        int s = 0; for (int[] row : g) for (int x : row) s += x;
        System.out.println(s + (int) h[1][0][1]);
    }
}
