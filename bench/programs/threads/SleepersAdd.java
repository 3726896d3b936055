// links from 21

/** Many threads that each sleep and then add 1 to a sum under one monitor. */
class SleepersAdd {
    static final int THREADS = 2000;
    static int sum;

    static synchronized void add() { sum++; }

    static final class Sleeps implements Runnable {
        public void run() {
            try {
                Thread.sleep(50);
                add();
            } catch (InterruptedException e) {
                System.out.println("interrupted");
            }
        }
    }

    public static void main(String[] args) throws InterruptedException {
        Thread[] threads = new Thread[THREADS];
        for (int i = 0; i < THREADS; i++) threads[i] = Thread.ofVirtual().start(new Sleeps());
        for (Thread t : threads) t.join();
        System.out.println(sum);
    }
}
