/** A virtual thread that spins on a field until it is told to end. */
class Spinner implements Runnable {
    static volatile boolean ends;

    public void run() {
        while (!ends) Thread.onSpinWait();
    }

    static Thread[] start(int count) {
        Thread[] threads = new Thread[count];
        for (int i = 0; i < count; i++) threads[i] = Thread.ofVirtual().start(new Spinner());
        return threads;
    }

    static void end(Thread[] threads) throws InterruptedException {
        ends = true;
        for (Thread thread : threads) thread.join();
    }
}
