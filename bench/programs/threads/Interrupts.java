// links from 21
import java.util.concurrent.locks.LockSupport;

class Interrupts {
    static volatile boolean go;

    static void await(Thread t, Thread.State state) { while (t.getState() != state) Thread.yield(); }

    /** A thread that parks is woken by an interrupt, which stays set; and then it parks no more until it is cleared. */
    static final class Parks implements Runnable {
        public void run() {
            LockSupport.park();
            System.out.println(Thread.currentThread().isInterrupted());
            LockSupport.park();
            System.out.println(Thread.interrupted() + " " + Thread.interrupted() + " " + Thread.currentThread().isInterrupted());
        }
    }

    /** A join that an interrupt ends clears the status. */
    static final class Joins implements Runnable {
        private final Thread target;
        Joins(Thread target) { this.target = target; }
        public void run() {
            try {
                target.join();
                System.out.println("joined");
            } catch (InterruptedException e) {
                System.out.println("interrupted " + Thread.currentThread().isInterrupted());
            }
        }
    }

    static final class Spins implements Runnable {
        public void run() { while (!go) Thread.yield(); }
    }

    static void own() {
        Thread.currentThread().interrupt();
        System.out.println(Thread.currentThread().isInterrupted());
        System.out.println(Thread.interrupted() + " " + Thread.interrupted());
    }

    static void parked() throws InterruptedException {
        Thread t = Thread.ofVirtual().start(new Parks());
        await(t, Thread.State.WAITING);
        t.interrupt();
        t.join();
    }

    static void joining() throws InterruptedException {
        go = false;
        Thread target = Thread.ofVirtual().start(new Spins());
        Thread t = Thread.ofVirtual().start(new Joins(target));
        await(t, Thread.State.WAITING);
        t.interrupt();
        t.join();
        go = true;
        target.join();
    }

    /** Who is interrupted already doesn't begin to wait for a thread that is live. */
    static void joiningLate() throws InterruptedException {
        go = false;
        Thread target = Thread.ofPlatform().start(new Spins());
        Thread.currentThread().interrupt();
        try {
            target.join();
            System.out.println("joined");
        } catch (InterruptedException e) {
            System.out.println("interrupted before " + Thread.currentThread().isInterrupted());
        }
        go = true;
        target.join();
    }

    /** An uncaught InterruptedException is checked, so that it is told by a handler. */
    static final class Passes implements Runnable {
        public void run() {
            while (!Thread.currentThread().isInterrupted()) Thread.yield();
            System.out.println("saw it");
        }
    }

    static void seen() throws InterruptedException {
        Thread t = Thread.ofPlatform().start(new Passes());
        t.interrupt();
        t.join();
    }

    public static void main(String[] args) throws InterruptedException {
        own();
        parked();
        joining();
        joiningLate();
        seen();
    }
}
