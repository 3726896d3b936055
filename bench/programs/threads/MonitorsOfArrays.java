// links from 21

/** Monitors of arrays, Strings and threads. */
class MonitorsOfArrays {
    static final int[] cells = new int[1];
    static final String text = "a" + "b";

    static final class Adds implements Runnable {
        private final Object lock;
        private final int place;
        static final int[] sums = new int[4];
        Adds(Object lock, int place) { this.lock = lock; this.place = place; }

        public void run() {
            for (int i = 0; i < 50; i++) {
                synchronized (lock) {
                    int n = sums[place];
                    if (i % 5 == 0) Thread.yield();
                    sums[place] = n + 1;
                }
            }
        }
    }

    public static void main(String[] args) throws InterruptedException {
        Object[] locks = { cells, text, new long[2][3], Thread.currentThread() };
        Thread[] threads = new Thread[12];
        for (int i = 0; i < threads.length; i++) threads[i] = Thread.ofVirtual().start(new Adds(locks[i % 4], i % 4));
        for (Thread t : threads) t.join();
        for (int n : Adds.sums) System.out.println(n);
        // Equal constants are one object, so theirs is one monitor.
        Thread t;
        synchronized ("ab") {
            t = Thread.ofVirtual().start(new Adds(text, 0));
            while (t.getState() != Thread.State.BLOCKED) Thread.yield();
            System.out.println(Adds.sums[0]);
        }
        t.join();
        System.out.println(Adds.sums[0]);
    }
}
