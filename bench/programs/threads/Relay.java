// links from 21
import java.util.concurrent.locks.LockSupport;

class Relay implements Runnable {
    static volatile int baton = -1;
    static final StringBuilder log = new StringBuilder();

    private final int number;
    Relay(int number) { this.number = number; }

    /** How long a thread is parked before it looks at the baton again, in nanoseconds: who only yields fills a history. */
    static final long PAUSE = 50_000;

    /** Waits for the one before, takes the baton, and starts the next but one. */
    public void run() {
        while (baton != number - 1) LockSupport.parkNanos(PAUSE);
        if (number % 100 == 0) log.append(number).append(Thread.currentThread().isVirtual() ? 'v' : 'p').append(' ');
        if (number + 2 < 1000) {
            if (number % 3 == 0) new Thread(new Relay(number + 2)).start();
            else Thread.ofVirtual().start(new Relay(number + 2));
        }
        baton = number;
    }

    public static void main(String[] args) throws InterruptedException {
        Thread.startVirtualThread(new Relay(0));
        new Thread(new Relay(1)).start();
        while (baton < 999) LockSupport.parkNanos(PAUSE);
        System.out.println(log);
    }
}
