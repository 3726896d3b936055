// links from 21

/** Threads whose run is synchronized begin when they have the monitor of their Thread object. */
class SynchronizedRuns {
    static int order;

    static synchronized int next() { return ++order; }

    static final class Counts extends Thread {
        int mine;
        public synchronized void run() {
            mine = next();
            notifyAll();
        }
    }

    static final class Throws extends Thread {
        public synchronized void run() { throw new IllegalStateException(); }
    }

    public static void main(String[] args) throws InterruptedException {
        Counts t = new Counts();
        synchronized (t) {
            t.start();
            while (t.getState() != Thread.State.BLOCKED) Thread.yield();
            System.out.println(t.mine + " " + t.getState());
            t.wait();
            System.out.println(t.mine);
        }
        t.join();
        Counts[] more = new Counts[5];
        for (int i = 0; i < more.length; i++) {
            more[i] = new Counts();
            more[i].start();
        }
        for (Counts c : more) c.join();
        System.out.println(order);
        Throws f = new Throws();
        synchronized (f) {
            f.start();
        }
        f.join();
        synchronized (f) {
            System.out.println(f.getState());
        }
    }
}
