// links from 21
import java.util.concurrent.locks.LockSupport;

/** Producers and consumers of a bounded ring, each of which waits by parking alone. */
class ParkQueue {
    static final int PLACES = 4;
    static final int ITEMS = 500;

    /** A ring of one producer and one consumer. */
    static final class Ring {
        private final int[] items = new int[PLACES];
        private volatile int head;
        private volatile int tail;
        volatile Thread producer;
        volatile Thread consumer;

        void put(int item) {
            while (tail - head == PLACES) LockSupport.park(this);
            items[tail % PLACES] = item;
            tail = tail + 1;
            LockSupport.unpark(consumer);
        }

        int take() {
            while (tail == head) LockSupport.park(this);
            int item = items[head % PLACES];
            head = head + 1;
            LockSupport.unpark(producer);
            return item;
        }
    }

    static final class Stage implements Runnable {
        private final Ring in;
        private final Ring out;

        Stage(Ring in, Ring out) { this.in = in; this.out = out; }

        public void run() {
            for (int i = 0; i < ITEMS; i++) {
                int item = in == null ? i : in.take();
                if (out != null) out.put(item + 1); else sum += item;
            }
        }
    }

    static long sum;

    public static void main(String[] args) throws InterruptedException {
        Ring[] rings = new Ring[6];
        for (int i = 0; i < rings.length; i++) rings[i] = new Ring();
        Thread[] threads = new Thread[rings.length + 1];
        for (int i = 0; i < threads.length; i++) {
            Ring in = i == 0 ? null : rings[i - 1];
            Ring out = i == rings.length ? null : rings[i];
            threads[i] = Thread.ofVirtual().unstarted(new Stage(in, out));
            if (in != null) in.consumer = threads[i];
            if (out != null) out.producer = threads[i];
        }
        for (Thread t : threads) t.start();
        for (Thread t : threads) t.join();
        System.out.println(sum);
    }
}
