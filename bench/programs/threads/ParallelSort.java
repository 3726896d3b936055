// links
class ParallelSort extends Thread {
    private final int[] cells, spare;
    private final int from, to;

    ParallelSort(int[] cells, int[] spare, int from, int to) {
        this.cells = cells; this.spare = spare; this.from = from; this.to = to;
    }

    @Override public void run() {
        if (to - from < 2) return;
        int middle = (from + to) >>> 1;
        ParallelSort left = new ParallelSort(cells, spare, from, middle), right = new ParallelSort(cells, spare, middle, to);
        if (to - from > 60) { left.start(); right.run(); } else { left.run(); right.run(); }
        try { left.join(); } catch (InterruptedException e) { throw new IllegalStateException(); }
        merge(middle);
    }

    private void merge(int middle) {
        int i = from, j = middle;
        for (int k = from; k < to; k++) spare[k] = j == to || i < middle && cells[i] <= cells[j] ? cells[i++] : cells[j++];
        for (int k = from; k < to; k++) cells[k] = spare[k];
    }

    public static void main(String[] args) throws InterruptedException {
        int[] cells = new int[1000];
        int seed = 12345;
        for (int i = 0; i < cells.length; i++) { seed = seed * 1103515245 + 12345; cells[i] = seed >>> 16 & 4095; }
        ParallelSort all = new ParallelSort(cells, new int[cells.length], 0, cells.length);
        all.start();
        all.join();
        boolean sorted = true;
        int sum = 0;
        for (int i = 0; i < cells.length; i++) { sum = 31 * sum + cells[i]; if (i > 0 && cells[i - 1] > cells[i]) sorted = false; }
        System.out.println(sorted + " " + sum + " " + cells[0] + " " + cells[999]);
    }
}
