// links
import java.util.concurrent.locks.LockSupport;

class PetersonLock extends Thread {
    /** How long a thread is parked before it looks again, in nanoseconds: who only yields fills a history. */
    static final long PAUSE = 20_000;
    static volatile boolean firstWants, secondWants;
    static volatile int turn;
    static int count, inside, most;

    private final boolean first;
    PetersonLock(boolean first) { this.first = first; }

    private void lock() {
        if (first) { firstWants = true; turn = 2; while (secondWants && turn == 2) LockSupport.parkNanos(PAUSE); }
        else { secondWants = true; turn = 1; while (firstWants && turn == 1) LockSupport.parkNanos(PAUSE); }
    }

    private void unlock() { if (first) firstWants = false; else secondWants = false; }

    @Override public void run() {
        for (int i = 0; i < 500; i++) {
            lock();
            inside++;
            if (inside > most) most = inside;
            int was = count;
            if (i % 7 == 0) Thread.yield();
            count = was + 1;
            inside--;
            unlock();
        }
    }

    public static void main(String[] args) throws InterruptedException {
        Thread a = new PetersonLock(true), b = new PetersonLock(false);
        a.start();
        b.start();
        a.join();
        b.join();
        System.out.println(count + " " + most);
    }
}
