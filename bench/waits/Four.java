/** Runs the same work in four virtual threads. */
abstract class Four implements Runnable {
    static void run(Runnable work) throws InterruptedException {
        Thread[] threads = new Thread[4];
        for (int i = 0; i < threads.length; i++) threads[i] = Thread.ofVirtual().start(work);
        for (Thread thread : threads) thread.join();
    }
}
