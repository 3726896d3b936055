/** Ten thousand virtual threads that sleep for a second. Prints how late the last of them was, in milliseconds. */
public class Late implements Runnable {
    static final int THREADS = 10_000;
    static final long NANOS = 1_000_000_000L;
    static long latest;

    public void run() {
        try {
            long before = System.nanoTime();
            Thread.sleep(NANOS / 1_000_000);
            long late = System.nanoTime() - before - NANOS;
            if (late > latest) latest = late;
        } catch (InterruptedException e) {
            throw new RuntimeException();
        }
    }

    public static void main(String[] args) throws InterruptedException {
        Thread[] threads = new Thread[THREADS];
        for (int i = 0; i < THREADS; i++) threads[i] = Thread.ofVirtual().start(new Late());
        for (Thread thread : threads) thread.join();
        System.out.println(latest / 1_000_000);
    }
}
