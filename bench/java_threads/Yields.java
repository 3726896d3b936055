/** Ten virtual threads that yield in turn. */
public class Yields implements Runnable {
    static final int THREADS = 10;
    static final int TURNS = 50_000;

    public void run() {
        for (int i = 0; i < TURNS; i++) Thread.yield();
    }

    public static void main(String[] args) throws InterruptedException {
        Thread[] threads = new Thread[THREADS];
        for (int i = 0; i < THREADS; i++) threads[i] = Thread.ofVirtual().start(new Yields());
        for (Thread t : threads) t.join();
        System.out.println(TURNS);
    }
}
