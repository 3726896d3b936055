// links from 17

/** Exceptions that leave synchronized methods and blocks give their monitors back. */
class ThrowsThroughMonitors {
    static final class Failure extends RuntimeException {}

    private int entered;

    synchronized void fail(int depth) {
        entered++;
        if (depth == 0) throw new Failure();
        fail(depth - 1);
    }

    static synchronized void failOfClass() { throw new Failure(); }

    synchronized int divide(int a, int b) {
        try {
            return a / b;
        } finally {
            entered += 100;
        }
    }

    void block(int n) {
        synchronized (this) {
            synchronized (lock) {
                int[] cells = new int[2];
                cells[n] = 1;
            }
        }
    }

    static final Object lock = new Object();

    /** Another thread can enter all of the monitors. */
    static final class Enters extends Thread {
        private final ThrowsThroughMonitors m;
        boolean done;
        Enters(ThrowsThroughMonitors m) { this.m = m; }

        public void run() {
            synchronized (m) {
                synchronized (lock) {
                    done = true;
                }
            }
            try {
                failOfClass();
            } catch (Failure e) {
                done &= true;
            }
        }
    }

    public static void main(String[] args) throws InterruptedException {
        ThrowsThroughMonitors m = new ThrowsThroughMonitors();
        try { m.fail(20); } catch (Failure e) { System.out.println("failed " + m.entered); }
        try { failOfClass(); } catch (Failure e) { System.out.println("failed"); }
        try { m.divide(1, 0); } catch (ArithmeticException e) { System.out.println("divided " + m.entered); }
        System.out.println(m.divide(7, 2));
        try { m.block(2); } catch (ArrayIndexOutOfBoundsException e) { System.out.println("index"); }
        m.block(1);
        Enters t = new Enters(m);
        t.start();
        t.join();
        System.out.println(t.done);
        m.fail(3);
    }
}
