// links from 21

/** Producers and consumers of one bounded buffer, which wait and notify all. */
class BoundedBuffer {
    static final int PLACES = 3;
    static final int PRODUCERS = 4;
    static final int CONSUMERS = 3;
    static final int ITEMS = 60;

    private final int[] items = new int[PLACES];
    private int head;
    private int count;

    synchronized void put(int item) throws InterruptedException {
        while (count == PLACES) wait();
        items[(head + count) % PLACES] = item;
        count++;
        notifyAll();
    }

    synchronized int take() throws InterruptedException {
        while (count == 0) wait();
        int item = items[head];
        head = (head + 1) % PLACES;
        count--;
        notifyAll();
        return item;
    }

    static final BoundedBuffer buffer = new BoundedBuffer();
    static final Object lock = new Object();
    static long sum;
    static int taken;

    static final class Produces implements Runnable {
        private final int first;
        Produces(int first) { this.first = first; }

        public void run() {
            try {
                for (int i = 0; i < ITEMS; i++) buffer.put(first + i);
            } catch (InterruptedException e) {
                System.out.println("interrupted");
            }
        }
    }

    static final class Consumes implements Runnable {
        public void run() {
            try {
                for (int i = 0; i < PRODUCERS * ITEMS / CONSUMERS; i++) {
                    int item = buffer.take();
                    synchronized (lock) {
                        sum += item;
                        taken++;
                    }
                }
            } catch (InterruptedException e) {
                System.out.println("interrupted");
            }
        }
    }

    public static void main(String[] args) throws InterruptedException {
        Thread[] threads = new Thread[PRODUCERS + CONSUMERS];
        for (int i = 0; i < threads.length; i++) {
            Runnable r = i < PRODUCERS ? new Produces(1000 * i) : new Consumes();
            threads[i] = i % 2 == 0 ? Thread.ofVirtual().start(r) : Thread.ofPlatform().start(r);
        }
        for (Thread t : threads) t.join();
        System.out.println(taken + " " + sum);
    }
}
