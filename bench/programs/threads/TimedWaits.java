// links from 21

/** Waits for a time: some are notified before it, some come to its end, and some are negative or 0. */
class TimedWaits {
    static final Object lock = new Object();
    static boolean told;

    static final class Waits implements Runnable {
        private final long millis;
        boolean ended;
        Waits(long millis) { this.millis = millis; }

        public void run() {
            synchronized (lock) {
                try {
                    lock.wait(millis);
                    ended = true;
                } catch (InterruptedException e) {
                    System.out.println("interrupted");
                }
            }
        }
    }

    static void await(Thread t, Thread.State state) { while (t.getState() != state) Thread.yield(); }

    public static void main(String[] args) throws InterruptedException {
        Waits soon = new Waits(5);
        Thread t = Thread.ofVirtual().start(soon);
        t.join();
        System.out.println(soon.ended);

        Waits late = new Waits(10000000);
        t = Thread.ofVirtual().start(late);
        await(t, Thread.State.TIMED_WAITING);
        synchronized (lock) { lock.notify(); }
        t.join();
        System.out.println(late.ended);

        Waits without = new Waits(0);
        t = Thread.ofVirtual().start(without);
        await(t, Thread.State.WAITING);
        synchronized (lock) { lock.notifyAll(); }
        t.join();
        System.out.println(without.ended);

        long before = System.nanoTime();
        synchronized (lock) {
            lock.wait(10);
            while (!told && System.nanoTime() - before < 20000000) lock.wait(1);
        }
        System.out.println(System.nanoTime() - before >= 20000000);
        try {
            lock.wait(-1);
        } catch (IllegalArgumentException e) {
            System.out.println("negative");
        }
    }
}
