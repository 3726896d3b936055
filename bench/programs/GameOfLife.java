// links
class GameOfLife {
    private boolean[][] cells;
    GameOfLife(String... rows) {
        cells = new boolean[rows.length][rows[0].length()];
        for (int i = 0; i < rows.length; i++) for (int j = 0; j < rows[i].length(); j++) cells[i][j] = rows[i].charAt(j) == '#';
    }

    private int neighbours(int i, int j) {
        int n = 0, h = cells.length, w = cells[0].length;
        for (int di = -1; di <= 1; di++) for (int dj = -1; dj <= 1; dj++) if ((di != 0 || dj != 0) && cells[(i + di + h) % h][(j + dj + w) % w]) n++;
        return n;
    }

    void step() {
        boolean[][] next = new boolean[cells.length][cells[0].length];
        for (int i = 0; i < cells.length; i++) for (int j = 0; j < cells[i].length; j++) { int n = neighbours(i, j); next[i][j] = n == 3 | cells[i][j] & n == 2; }
        cells = next;
    }

    @Override public String toString() {
        StringBuilder s = new StringBuilder();
        for (boolean[] row : cells) { for (boolean c : row) s.append(c ? '#' : '.'); s.append('\n'); }
        return s.toString();
    }

    public static void main(String[] args) {
        GameOfLife life = new GameOfLife(".#....", "..#...", "###...", "......", "......", "......");
        for (int k = 0; k < 12; k++) { if (k % 4 == 0) System.out.print(life); life.step(); }
        System.out.println(life.neighbours(0, 0) + " " + life.neighbours(5, 5));
    }
}
