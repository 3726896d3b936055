import java.util.concurrent.locks.LockSupport;
import jvt.Native;

/** Five threads park under native frames. With as many carriers or fewer they keep main from unparking them. */
class MorePinned implements Runnable {
    private static final int THREADS = 5;

    private static int unparked;

    private final boolean held;

    MorePinned(boolean held) { this.held = held; }

    private static synchronized void count() { unparked++; }

    public void run() {
        if (!held) {
            Native.hold(new MorePinned(true));
            return;
        }
        LockSupport.park();
        count();
    }

    public static void main(String[] args) throws InterruptedException {
        Thread[] threads = new Thread[THREADS];
        for (int i = 0; i < THREADS; i++) {
            threads[i] = Thread.ofVirtual().unstarted(new MorePinned(false));
            threads[i].start();
        }
        for (int i = 0; i < THREADS; i++) while (threads[i].getState() != Thread.State.WAITING) Thread.sleep(1);
        for (int i = 0; i < THREADS; i++) LockSupport.unpark(threads[i]);
        for (int i = 0; i < THREADS; i++) threads[i].join();
        System.out.println(unparked);
    }
}
