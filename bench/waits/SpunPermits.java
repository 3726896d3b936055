import java.util.concurrent.locks.LockSupport;

/** Two virtual threads that give each other permits in turn, beside three that spin. */
public class SpunPermits implements Runnable {
    static final int TURNS = 5_000;
    static final Thread[] THREADS = new Thread[2];

    private final int number;

    SpunPermits(int number) { this.number = number; }

    public void run() {
        for (int i = 0; i < TURNS; i++) {
            if (number == 1) LockSupport.park();
            LockSupport.unpark(THREADS[1 - number]);
            if (number == 0) LockSupport.park();
        }
    }

    public static void main(String[] args) throws InterruptedException {
        Thread[] spinners = Spinner.start(3);
        for (int i = 0; i < 2; i++) THREADS[i] = Thread.ofVirtual().unstarted(new SpunPermits(i));
        THREADS[1].start();
        THREADS[0].start();
        for (Thread thread : THREADS) thread.join();
        Spinner.end(spinners);
        System.out.println(TURNS);
    }
}
