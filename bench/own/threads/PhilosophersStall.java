/** Philosophers who all take the fork to their left first wait for the one to their right for ever. */
class PhilosophersStall implements Runnable {
    private static int seated;

    private final Object left;

    private final Object right;

    PhilosophersStall(Object left, Object right) {
        this.left = left;
        this.right = right;
    }

    private static synchronized void sit() { seated++; }

    private static synchronized boolean areSeated() { return seated == 3; }

    public void run() {
        synchronized (left) {
            sit();
            while (!areSeated()) Thread.yield();
            synchronized (right) {
                System.out.println("not reached");
            }
        }
    }

    public static void main(String[] args) throws InterruptedException {
        Object[] forks = { new Object(), new Object(), new Object() };
        Thread[] philosophers = new Thread[3];
        for (int i = 0; i < 3; i++) {
            philosophers[i] = Thread.ofVirtual().start(new PhilosophersStall(forks[i], forks[(i + 1) % 3]));
        }
        System.out.println("main waits for them");
        for (Thread t : philosophers) t.join();
    }
}
