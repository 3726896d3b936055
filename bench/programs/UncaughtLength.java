// links
class UncaughtLength {
    public static void main(String[] args) {
        for (int n = 2; ; n--) {
            long[][] grid = new long[2][n];
            System.out.println(grid.length + " " + grid[1].length);
        }
    }
}
