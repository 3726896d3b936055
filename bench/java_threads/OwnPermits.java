import java.util.concurrent.locks.LockSupport;

/** A virtual thread that gives itself a permit, and takes it. */
public class OwnPermits implements Runnable {
    static final int TURNS = 500_000;

    public void run() {
        Thread me = Thread.currentThread();
        for (int i = 0; i < TURNS; i++) {
            LockSupport.unpark(me);
            LockSupport.park();
        }
    }

    public static void main(String[] args) throws InterruptedException {
        Thread.ofVirtual().start(new OwnPermits()).join();
        System.out.println(TURNS);
    }
}
