import java.util.concurrent.locks.LockSupport;
import jvt.Native;

/** Main parks under a native frame, and another thread unparks it, where it has a carrier. */
class PinnedMain implements Runnable {
    private static Thread main;

    private final boolean held;

    PinnedMain(boolean held) { this.held = held; }

    public void run() {
        if (held) {
            LockSupport.park();
            System.out.println("unparked");
        } else {
            System.out.println("unparks");
            LockSupport.unpark(main);
        }
    }

    public static void main(String[] args) throws InterruptedException {
        main = Thread.currentThread();
        Thread t = Thread.ofVirtual().unstarted(new PinnedMain(false));
        t.start();
        Native.hold(new PinnedMain(true));
        t.join();
    }
}
