/** Main waits to be notified, and so does a thread that may go on only after main: nobody is left to notify them. */
class WaitsForEver implements Runnable {
    private static final Object lock = new Object();

    public void run() {
        synchronized (lock) {
            lock.notify();
            try {
                lock.wait();
            } catch (InterruptedException e) {
                throw new IllegalStateException();
            }
        }
        System.out.println("not reached");
    }

    public static void main(String[] args) throws InterruptedException {
        synchronized (lock) {
            Thread.ofVirtual().start(new WaitsForEver());
            lock.wait();
            System.out.println("main was notified once");
            lock.wait();
        }
        System.out.println("not reached");
    }
}
