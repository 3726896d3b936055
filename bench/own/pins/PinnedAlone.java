import java.util.concurrent.locks.LockSupport;
import jvt.Native;

/** Threads under native frames that wait for a time, or for nothing, so one carrier is enough. */
class PinnedAlone implements Runnable {
    private static final int YIELDS = 0, SLEEPS = 1, PARKS = 2, WAITS = 3, HAS_A_PERMIT = 4, NESTS = 5, THROWS = 6, CATCHES = 7;

    private final int kind;
    private final boolean held;

    PinnedAlone(int kind, boolean held) {
        this.kind = kind;
        this.held = held;
    }

    public void run() {
        try {
            if (held) goOn();
            else hold();
        } catch (InterruptedException e) {
            System.out.println("interrupted");
        }
    }

    private void hold() {
        try {
            Native.hold(new PinnedAlone(kind, true));
        } catch (IllegalStateException e) {
            System.out.println("thrown through the frame");
            LockSupport.park();
            System.out.println("unpinned");
        }
    }

    private void goOn() throws InterruptedException {
        switch (kind) {
            case YIELDS:
                for (int i = 0; i < 3; i++) {
                    System.out.println(i);
                    Thread.yield();
                }
                break;
            case SLEEPS:
                Thread.sleep(2);
                System.out.println("slept");
                break;
            case PARKS:
                LockSupport.parkNanos(1000000);
                System.out.println("parked");
                break;
            case WAITS:
                synchronized (this) {
                    wait(2);
                    System.out.println("waited");
                }
                break;
            case HAS_A_PERMIT:
                LockSupport.unpark(Thread.currentThread());
                LockSupport.park();
                System.out.println("had a permit");
                break;
            case NESTS:
                Native.hold(new PinnedAlone(SLEEPS, true));
                LockSupport.parkNanos(1000000);
                System.out.println("held by the outer frame");
                break;
            case CATCHES:
                try {
                    Native.hold(new PinnedAlone(THROWS, true));
                } catch (IllegalStateException e) {
                    System.out.println("thrown through the inner frame");
                }
                Thread.sleep(1);
                System.out.println("held by the outer frame");
                break;
            default:
                throw new IllegalStateException();
        }
    }

    public static void main(String[] args) throws InterruptedException {
        for (int kind = YIELDS; kind <= CATCHES; kind++) {
            Thread t = Thread.ofVirtual().unstarted(new PinnedAlone(kind, false));
            t.start();
            if (kind == THROWS) {
                while (t.getState() != Thread.State.WAITING) Thread.sleep(1);
                LockSupport.unpark(t);
            }
            t.join();
        }
    }
}
