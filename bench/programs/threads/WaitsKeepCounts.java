// links from 21

/** A thread that waits leaves its monitor wholly, and has it as often as before when it goes on. */
class WaitsKeepCounts {
    static final Object o = new Object();

    static final class Waits implements Runnable {
        public void run() {
            try {
                synchronized (o) {
                    synchronized (o) {
                        o.wait();
                        System.out.println(1);
                    }
                    o.notifyAll();
                    System.out.println(2);
                }
                o.notifyAll();
            } catch (InterruptedException e) {
                System.out.println("interrupted");
            } catch (IllegalMonitorStateException e) {
                System.out.println(3);
            }
        }
    }

    public static void main(String[] args) throws InterruptedException {
        Thread t = Thread.ofVirtual().start(new Waits());
        while (t.getState() != Thread.State.WAITING) Thread.yield();
        synchronized (o) {
            o.notify();
            System.out.println(0);
        }
        t.join();
    }
}
