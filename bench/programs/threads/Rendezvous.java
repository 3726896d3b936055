// links from 21

/** Exchanges of values between pairs of threads, by one slot and three states. */
class Rendezvous {
    static final class Exchange {
        private Object offer;
        private Object answer;
        private int state;

        synchronized Object swap(Object mine) throws InterruptedException {
            while (state == 2) wait();
            if (state == 0) {
                offer = mine;
                state = 1;
                while (state != 2) wait();
                Object theirs = answer;
                state = 0;
                notifyAll();
                return theirs;
            }
            Object theirs = offer;
            answer = mine;
            state = 2;
            notifyAll();
            return theirs;
        }
    }

    static final Exchange exchange = new Exchange();
    static final int[] seen = new int[8];

    static final class Swaps implements Runnable {
        private final int number;
        Swaps(int number) { this.number = number; }

        public void run() {
            try {
                int[] mine = { number };
                for (int i = 0; i < 20; i++) mine = (int[]) exchange.swap(mine);
                synchronized (seen) { seen[mine[0]]++; }
            } catch (InterruptedException e) {
                System.out.println("interrupted");
            }
        }
    }

    public static void main(String[] args) throws InterruptedException {
        Thread[] threads = new Thread[2];
        for (int i = 0; i < threads.length; i++) threads[i] = Thread.ofVirtual().start(new Swaps(i));
        for (Thread t : threads) t.join();
        System.out.println(seen[0] + " " + seen[1]);
    }
}
