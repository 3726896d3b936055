/** Threads that wait on one monitor, of which main notifies one in each turn, which waits again. */
class Waiting implements Runnable {
    static final Object LOCK = new Object();
    static int notified;

    public void run() {
        synchronized (LOCK) {
            try {
                while (true) {
                    LOCK.wait();
                    notified++;
                }
            } catch (InterruptedException e) {
                System.out.println(e);
            }
        }
    }

    static void notifyAmong(int waiting, int turns) {
        for (int i = 0; i < waiting; i++) Thread.ofVirtual().start(new Waiting());
        Thread.yield();
        for (int i = 0; i < turns; i++) {
            synchronized (LOCK) {
                LOCK.notify();
            }
            Thread.yield();
        }
        System.out.println(notified);
    }
}
