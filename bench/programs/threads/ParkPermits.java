// links from 21
import java.util.concurrent.locks.LockSupport;

class ParkPermits {
    static volatile boolean go;

    static final class Parks implements Runnable {
        public void run() {
            while (!go) Thread.yield();
            LockSupport.park();
            System.out.println(1);
            LockSupport.park(this);
            System.out.println(2);
        }
    }

    static void await(Thread t, Thread.State state) { while (t.getState() != state) Thread.yield(); }

    /** Two permits given before a park are one, so the second park waits. */
    static void twoAreOne() throws InterruptedException {
        go = false;
        Thread t = Thread.ofVirtual().start(new Parks());
        LockSupport.unpark(t);
        LockSupport.unpark(t);
        go = true;
        await(t, Thread.State.WAITING);
        System.out.println("w");
        LockSupport.unpark(t);
        t.join();
    }

    /** A permit is of one thread, and main may give itself one. */
    static void ownPermit() {
        LockSupport.unpark(Thread.currentThread());
        LockSupport.park();
        System.out.println("own permit");
    }

    /** Nothing becomes of a permit for no thread, and for one that is done. */
    static void permitsForNobody() throws InterruptedException {
        LockSupport.unpark(null);
        Thread t = Thread.ofVirtual().start(new Parks());
        await(t, Thread.State.WAITING);
        LockSupport.unpark(t);
        while (t.isAlive()) {
            LockSupport.unpark(t);
            Thread.yield();
        }
        t.join();
        LockSupport.unpark(t);
        System.out.println(t.getState());
    }

    public static void main(String[] args) throws InterruptedException {
        twoAreOne();
        ownPermit();
        permitsForNobody();
    }
}
