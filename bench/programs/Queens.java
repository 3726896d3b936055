// links
class Queens {
    static int byBits(int n, int columns, int left, int right) {
        int all = (1 << n) - 1;
        if (columns == all) return 1;
        int sum = 0;
        for (int free = all & ~(columns | left | right); free != 0; free &= free - 1) { int bit = free & -free; sum += byBits(n, columns | bit, (left | bit) << 1, (right | bit) >> 1); }
        return sum;
    }

    private final int[] at; private int tries;
    Queens(int n) { at = new int[n]; }

    boolean place(int row) {
        if (row == at.length) return true;
        next:
        for (int c = 0; c < at.length; c++) {
            tries++;
            for (int r = 0; r < row; r++) if (at[r] == c || at[r] - c == row - r || c - at[r] == row - r) continue next;
            at[row] = c;
            if (place(row + 1)) return true;
        }
        return false;
    }

    public static void main(String[] args) {
        for (int n = 1; n <= 7; n++) System.out.println(n + " " + byBits(n, 0, 0, 0));
        Queens q = new Queens(8);
        System.out.println(q.place(0) + " " + q.tries);
        for (int r : q.at) { String line = ""; for (int c = 0; c < 8; c++) line += c == r ? 'Q' : '.'; System.out.println(line); }
        System.out.println(new Queens(3).place(0));
    }
}
