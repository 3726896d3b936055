/** Ten virtual threads that sleep for ten seconds, beside main, which waits for them. */
public class Asleep implements Runnable {
    public void run() {
        try {
            Thread.sleep(10_000);
        } catch (InterruptedException e) {
            throw new RuntimeException();
        }
    }

    public static void main(String[] args) throws InterruptedException {
        Thread[] threads = new Thread[10];
        for (int i = 0; i < threads.length; i++) threads[i] = Thread.ofVirtual().start(new Asleep());
        for (Thread thread : threads) thread.join();
        System.out.println(threads.length);
    }
}
