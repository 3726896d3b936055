// links from 21

/** What Thread.getState tells of threads at monitors. */
class MonitorStates {
    static final Object lock = new Object();
    static volatile boolean go;

    static void await(Thread t, Thread.State state) { while (t.getState() != state) Thread.yield(); }

    static final class Enters implements Runnable {
        private final long millis;
        Enters(long millis) { this.millis = millis; }

        public void run() {
            synchronized (lock) {
                try {
                    if (millis >= 0) lock.wait(millis);
                } catch (InterruptedException e) {
                    System.out.println("interrupted");
                }
            }
        }
    }

    public static void main(String[] args) throws InterruptedException {
        Thread a = Thread.ofVirtual().unstarted(new Enters(-1));
        Thread b = Thread.ofVirtual().unstarted(new Enters(0));
        Thread c = Thread.ofVirtual().unstarted(new Enters(100000000));
        synchronized (lock) {
            a.start();
            await(a, Thread.State.BLOCKED);
            System.out.println(a.getState());
        }
        a.join();
        b.start();
        c.start();
        await(b, Thread.State.WAITING);
        await(c, Thread.State.TIMED_WAITING);
        System.out.println(b.getState().equals(Thread.State.WAITING) + " " + c.getState().equals(Thread.State.TIMED_WAITING));
        synchronized (lock) {
            lock.notifyAll();
            System.out.println(b.getState().equals(Thread.State.WAITING) + " " + c.getState().equals(Thread.State.TIMED_WAITING));
        }
        b.join();
        c.join();
        System.out.println(a.getState() + " " + b.getState() + " " + c.getState());
    }
}
