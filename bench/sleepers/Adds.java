/** Ten thousand virtual threads that sleep for 50 ms, and then add 1 to a sum under one monitor. */
public class Adds implements Runnable {
    static final int THREADS = 10_000;
    static int sum;

    static synchronized void add() { sum++; }

    public void run() {
        try {
            Thread.sleep(50);
            add();
        } catch (InterruptedException e) {
            throw new RuntimeException();
        }
    }

    public static void main(String[] args) throws InterruptedException {
        Thread[] threads = new Thread[THREADS];
        for (int i = 0; i < THREADS; i++) threads[i] = Thread.ofVirtual().start(new Adds());
        for (Thread thread : threads) thread.join();
        System.out.println(sum);
    }
}
