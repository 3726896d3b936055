/** Starts virtual threads, which add a number each, and joins them. */
public class Starts implements Runnable {
    static final int THREADS = 50_000;
    static int sum;

    private final int number;

    Starts(int number) { this.number = number; }

    public void run() { sum += number; }

    public static void main(String[] args) throws InterruptedException {
        Thread[] threads = new Thread[THREADS];
        for (int i = 0; i < THREADS; i++) threads[i] = Thread.ofVirtual().start(new Starts(i));
        for (Thread t : threads) t.join();
        System.out.println(sum);
    }
}
