// links from 17

/** IllegalMonitorStateException from calls of who doesn't own the monitor. */
class UnownedMonitors {
    static int caught;

    static void one(Object o, int call) throws InterruptedException {
        try {
            switch (call) {
                case 0: o.wait(); break;
                case 1: o.wait(5); break;
                case 2: o.notify(); break;
                default: o.notifyAll(); break;
            }
            System.out.println("none");
        } catch (IllegalMonitorStateException e) {
            caught++;
        }
    }

    static final class Tries extends Thread {
        private final Object o;
        Tries(Object o) { this.o = o; }

        public void run() {
            try {
                for (int i = 0; i < 4; i++) one(o, i);
            } catch (InterruptedException e) {
                System.out.println("interrupted");
            }
        }
    }

    public static void main(String[] args) throws InterruptedException {
        Object o = new Object();
        for (int i = 0; i < 4; i++) one(o, i);
        System.out.println(caught);
        synchronized (o) {
            Thread t = new Tries(o);
            t.start();
            t.join();
            o.notify();
            o.notifyAll();
            o.wait(1);
        }
        System.out.println(caught);
        synchronized (new Object()) {
            for (int i = 0; i < 4; i++) one(o, i);
        }
        System.out.println(caught);
        // The owner is tested before the interrupt status, and the time before both.
        Thread.currentThread().interrupt();
        one(o, 0);
        System.out.println(caught + " " + Thread.interrupted());
        try {
            o.wait(-1);
        } catch (IllegalArgumentException e) {
            System.out.println("negative");
        }
        o.wait(3);
    }
}
