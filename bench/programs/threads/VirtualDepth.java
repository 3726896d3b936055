// links from 21
class VirtualDepth implements Runnable {
    private final int depth;
    private int sum;

    VirtualDepth(int depth) { this.depth = depth; }

    /** Yields at each frame, so that the frames are put down and taken up at all depths. */
    private int down(int n) {
        if (n % 16 == 0) Thread.yield();
        int below = n == 0 ? 0 : down(n - 1);
        if (n % 16 == 0) Thread.yield();
        return below + n;
    }

    public void run() {
        sum = down(depth);
        try { forever(0); } catch (StackOverflowError e) { Thread.yield(); sum++; }
    }

    private int forever(int n) { return forever(n + 1) + 1; }

    public static void main(String[] args) throws InterruptedException {
        VirtualDepth[] tasks = new VirtualDepth[20];
        Thread[] threads = new Thread[tasks.length];
        for (int i = 0; i < tasks.length; i++) {
            tasks[i] = new VirtualDepth(50 * i);
            threads[i] = Thread.ofVirtual().start(tasks[i]);
        }
        for (int i = 0; i < tasks.length; i++) {
            threads[i].join();
            System.out.println(tasks[i].sum);
        }
    }
}
