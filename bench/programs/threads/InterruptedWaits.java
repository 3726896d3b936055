// links from 21

/** Interrupts of threads that wait on a monitor, before, in and after a notification. */
class InterruptedWaits {
    static final Object lock = new Object();
    static final StringBuilder told = new StringBuilder();

    static void await(Thread t, Thread.State state) { while (t.getState() != state) Thread.yield(); }

    static final class Waits implements Runnable {
        String end = "none";
        boolean before;

        public void run() {
            if (before) Thread.currentThread().interrupt();
            synchronized (lock) {
                try {
                    lock.wait();
                    end = "notified " + Thread.currentThread().isInterrupted();
                } catch (InterruptedException e) {
                    end = "interrupted " + Thread.currentThread().isInterrupted();
                }
            }
        }
    }

    public static void main(String[] args) throws InterruptedException {
        Waits w = new Waits();
        Thread t = Thread.ofVirtual().start(w);
        await(t, Thread.State.WAITING);
        t.interrupt();
        t.join();
        System.out.println(w.end);

        w = new Waits();
        w.before = true;
        t = Thread.ofVirtual().start(w);
        t.join();
        System.out.println(w.end);

        // A thread that is notified first is not interrupted, and keeps its status.
        w = new Waits();
        t = Thread.ofVirtual().start(w);
        await(t, Thread.State.WAITING);
        synchronized (lock) {
            lock.notify();
            t.interrupt();
        }
        t.join();
        System.out.println(w.end);

        // One that is interrupted while the monitor is owned waits for it, and then throws.
        w = new Waits();
        t = Thread.ofVirtual().start(w);
        await(t, Thread.State.WAITING);
        synchronized (lock) {
            t.interrupt();
            await(t, Thread.State.BLOCKED);
            System.out.println(w.end);
        }
        t.join();
        System.out.println(w.end);

        // An interrupt uses up no notification.
        Waits first = new Waits();
        Waits second = new Waits();
        Thread a = Thread.ofVirtual().start(first);
        await(a, Thread.State.WAITING);
        Thread b = Thread.ofVirtual().start(second);
        await(b, Thread.State.WAITING);
        synchronized (lock) {
            a.interrupt();
            lock.notify();
        }
        a.join();
        b.join();
        System.out.println(first.end + ", " + second.end);
    }
}
