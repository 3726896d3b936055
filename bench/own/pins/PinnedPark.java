import java.util.concurrent.locks.LockSupport;
import jvt.Native;

/** A thread that parks under a native frame keeps its carrier. With another one main unparks it; with none main is kept from that. */
class PinnedPark implements Runnable {
    private final boolean held;

    PinnedPark(boolean held) { this.held = held; }

    public void run() {
        if (!held) {
            Native.hold(new PinnedPark(true));
            return;
        }
        LockSupport.park();
        System.out.println(5);
    }

    public static void main(String[] args) throws InterruptedException {
        Thread t = Thread.ofVirtual().unstarted(new PinnedPark(false));
        t.start();
        while (t.getState() != Thread.State.WAITING) Thread.yield();
        LockSupport.unpark(t);
        t.join();
    }
}
