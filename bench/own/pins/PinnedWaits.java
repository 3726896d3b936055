import java.util.concurrent.locks.LockSupport;
import jvt.Native;

/** Threads under native frames that wait for main, each in another way, so main needs a carrier of its own. */
class PinnedWaits implements Runnable {
    private static final int PARKS = 0, ENTERS = 1, WAITS = 2, JOINS = 3, SLEEPS = 4, NESTS = 5;
    private static final Object LOCK = new Object();

    private static Thread joined;
    private static volatile int parks;

    private final int kind;
    private final boolean held;

    PinnedWaits(int kind, boolean held) {
        this.kind = kind;
        this.held = held;
    }

    public void run() {
        if (!held) {
            Native.hold(new PinnedWaits(kind, true));
            return;
        }
        try {
            goOn();
        } catch (InterruptedException e) {
            System.out.println("interrupted");
        }
    }

    private void goOn() throws InterruptedException {
        switch (kind) {
            case PARKS:
                LockSupport.park();
                System.out.println("unparked");
                parks++;
                break;
            case ENTERS:
                synchronized (LOCK) {
                    System.out.println("entered");
                }
                break;
            case WAITS:
                synchronized (LOCK) {
                    LOCK.wait();
                    System.out.println("notified");
                }
                break;
            case JOINS:
                joined.join();
                System.out.println("joined");
                break;
            case SLEEPS:
                Thread.sleep(1000000);
                break;
            default:
                Native.hold(new PinnedWaits(PARKS, true));
                LockSupport.park();
                System.out.println("unparked again");
        }
    }

    private static Thread start(int kind, boolean held) {
        Thread t = Thread.ofVirtual().unstarted(new PinnedWaits(kind, held));
        t.start();
        return t;
    }

    private static void await(Thread t, Thread.State state) throws InterruptedException {
        while (t.getState() != state) Thread.sleep(1);
    }

    private static void unpark(Thread t) throws InterruptedException {
        await(t, Thread.State.WAITING);
        LockSupport.unpark(t);
    }

    public static void main(String[] args) throws InterruptedException {
        Thread t = start(PARKS, false);
        unpark(t);
        t.join();

        synchronized (LOCK) {
            t = start(ENTERS, false);
            await(t, Thread.State.BLOCKED);
            System.out.println("main leaves");
        }
        t.join();

        t = start(WAITS, false);
        await(t, Thread.State.WAITING);
        synchronized (LOCK) {
            LOCK.notify();
            System.out.println("main notifies");
        }
        t.join();

        joined = start(PARKS, true);
        t = start(JOINS, false);
        await(t, Thread.State.WAITING);
        unpark(joined);
        t.join();

        t = start(SLEEPS, false);
        await(t, Thread.State.TIMED_WAITING);
        t.interrupt();
        t.join();

        t = start(NESTS, false);
        int before = parks;
        unpark(t);
        while (parks == before) Thread.sleep(1);
        unpark(t);
        t.join();
    }
}
