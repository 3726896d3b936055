import java.util.concurrent.locks.LockSupport;

/** Two virtual threads that give each other permits in turn. */
public class Handovers implements Runnable {
    static final int TURNS = 100_000;
    static final Thread[] THREADS = new Thread[2];

    private final int number;

    Handovers(int number) {
        this.number = number;
    }

    public void run() {
        for (int i = 0; i < TURNS; i++) {
            if (number == 1) LockSupport.park();
            LockSupport.unpark(THREADS[1 - number]);
            if (number == 0) LockSupport.park();
        }
    }

    public static void main(String[] args) throws InterruptedException {
        for (int i = 0; i < 2; i++) THREADS[i] = Thread.ofVirtual().unstarted(new Handovers(i));
        // Thread 1 comes first: a thread that isn't started doesn't keep a permit.
        THREADS[1].start();
        THREADS[0].start();
        for (Thread thread : THREADS) thread.join();
        System.out.println(TURNS);
    }
}
