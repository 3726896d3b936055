// links from 21
import java.util.concurrent.locks.LockSupport;

/** Joins for a time of threads that end before it and after it. */
class TimedJoins {
    static volatile boolean go;

    static void await(Thread t, Thread.State state) { while (t.getState() != state) Thread.yield(); }

    static final class Waits implements Runnable {
        public void run() { while (!go) LockSupport.park(); }
    }

    static final class Sleeps implements Runnable {
        public void run() {
            try {
                Thread.sleep(5);
            } catch (InterruptedException e) {
                System.out.println("interrupted");
            }
        }
    }

    static final class Joins implements Runnable {
        private final Thread target;
        Joins(Thread target) { this.target = target; }
        public void run() {
            try {
                target.join(1000000);
                System.out.println("joined");
            } catch (InterruptedException e) {
                System.out.println("interrupted " + Thread.currentThread().isInterrupted());
            }
        }
    }

    public static void main(String[] args) throws InterruptedException {
        Thread late = Thread.ofVirtual().start(new Waits());
        long before = System.nanoTime();
        late.join(10);
        System.out.println(late.isAlive() + " " + (System.nanoTime() - before >= 10000000));
        Thread joins = Thread.ofVirtual().start(new Joins(late));
        await(joins, Thread.State.TIMED_WAITING);
        joins.interrupt();
        joins.join(0);
        go = true;
        LockSupport.unpark(late);
        late.join(1000000);
        System.out.println(late.getState());
        Thread early = Thread.ofVirtual().start(new Sleeps());
        early.join(1000000);
        System.out.println(early.isAlive());
        early.join(1);
        try {
            early.join(-1);
        } catch (IllegalArgumentException e) {
            System.out.println("negative");
        }
    }
}
