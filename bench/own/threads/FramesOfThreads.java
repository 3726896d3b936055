/** Each thread has 2,048 frames of its own, with that of its run. */
class FramesOfThreads extends Thread {
    private final int depth;

    FramesOfThreads(int depth) { this.depth = depth; }

    /** Has n + 1 frames at once, and gives back n. */
    static int down(int n) { return n == 0 ? 0 : down(n - 1) + 1; }

    @Override public void run() { System.out.println(down(depth)); }

    public static void main(String[] args) throws InterruptedException {
        for (int depth = 2046; depth < 2048; depth++) {
            Thread t = new FramesOfThreads(depth);
            t.start();
            t.join();
        }
        System.out.println(down(2046));
    }
}
