/** Two virtual threads that notify each other in turn. */
public class WaitHandovers implements Runnable {
    static final int TURNS = 100_000;
    static final Object LOCK = new Object();
    static int next;

    private final int number;

    WaitHandovers(int number) {
        this.number = number;
    }

    public void run() {
        try {
            for (int i = 0; i < TURNS; i++) {
                synchronized (LOCK) {
                    while (next != number) LOCK.wait();
                    next = 1 - number;
                    LOCK.notify();
                }
            }
        } catch (InterruptedException e) {
            System.out.println(e);
        }
    }

    public static void main(String[] args) throws InterruptedException {
        Thread[] threads = new Thread[2];
        for (int i = 0; i < 2; i++) threads[i] = Thread.ofVirtual().start(new WaitHandovers(i));
        for (Thread thread : threads) thread.join();
        System.out.println(TURNS);
    }
}
