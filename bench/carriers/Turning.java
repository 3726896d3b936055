/** Four virtual threads that each add in a loop of local instructions, a hundred million times. */
public class Turning implements Runnable {
    static volatile long total;

    public void run() {
        int sum = 0;
        for (int i = 0; i < 100_000_000; i++) sum += i;
        total = sum;
    }

    public static void main(String[] args) throws InterruptedException {
        Thread[] threads = new Thread[4];
        for (int i = 0; i < threads.length; i++) threads[i] = Thread.ofVirtual().start(new Turning());
        for (Thread thread : threads) thread.join();
        System.out.println(total);
    }
}
