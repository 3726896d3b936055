import java.util.concurrent.locks.LockSupport;

/** A thousand virtual threads that yield, add under a monitor, are parked and unparked in a row, and are joined. */
public class Crowded implements Runnable {
    static final int THREADS = 1_000;
    static final Thread[] threads = new Thread[THREADS];
    static final Object lock = new Object();
    static volatile int turn;
    static int sum, waiting;

    private final int number;

    Crowded(int number) {
        this.number = number;
    }

    public void run() {
        Thread.yield();
        synchronized (lock) {
            sum += number % 7;
            waiting++;
            lock.notifyAll();
        }
        while (turn != number) LockSupport.park();
        turn = number + 1;
        if (number + 1 < THREADS) LockSupport.unpark(threads[number + 1]);
    }

    public static void main(String[] args) throws InterruptedException {
        for (int i = 0; i < THREADS; i++) threads[i] = Thread.ofVirtual().unstarted(new Crowded(i));
        for (Thread thread : threads) thread.start();
        synchronized (lock) {
            while (waiting < THREADS) lock.wait();
        }
        for (Thread thread : threads) thread.join();
        System.out.println(sum);
    }
}
