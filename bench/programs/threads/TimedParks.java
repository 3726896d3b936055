// links from 21
import java.util.concurrent.locks.LockSupport;

/** Parks for a time that end early, by a permit or an interrupt, and late, by the time. */
class TimedParks {
    static volatile int step;

    static void await(Thread t, Thread.State state) { while (t.getState() != state) Thread.yield(); }

    /** Whether a park of this many nanoseconds lasted as long. */
    static boolean lasts(long nanos) {
        long before = System.nanoTime();
        LockSupport.parkNanos(nanos);
        return System.nanoTime() - before >= nanos;
    }

    static final class Parks implements Runnable {
        public void run() {
            while (step == 0) LockSupport.parkNanos(this, 3600000000000L);
            System.out.println("early " + Thread.currentThread().isInterrupted());
            step = 2;
            while (!Thread.currentThread().isInterrupted()) LockSupport.parkNanos(3600000000000L);
            System.out.println("interrupted " + Thread.interrupted());
        }
    }

    public static void main(String[] args) throws InterruptedException {
        LockSupport.unpark(Thread.currentThread());
        System.out.println(lasts(3600000000000L));
        LockSupport.parkNanos(0);
        LockSupport.parkNanos(-5);
        boolean late = false;
        for (int i = 0; i < 100 && !late; i++) late = lasts(1000000);
        System.out.println(late);
        Thread t = Thread.ofVirtual().start(new Parks());
        await(t, Thread.State.TIMED_WAITING);
        step = 1;
        LockSupport.unpark(t);
        while (step != 2) Thread.yield();
        await(t, Thread.State.TIMED_WAITING);
        t.interrupt();
        t.join();
        System.out.println(t.getState());
    }
}
