// links from 21

/** Dining philosophers, who take the fork of the lesser number first. */
class Philosophers {
    static final int SEATS = 7;
    static final int MEALS = 30;
    static final Object[] forks = new Object[SEATS];
    static final int[] eaten = new int[SEATS];

    static final class Philosopher implements Runnable {
        private final int seat;
        Philosopher(int seat) { this.seat = seat; }

        public void run() {
            int next = (seat + 1) % SEATS;
            Object first = forks[seat < next ? seat : next];
            Object second = forks[seat < next ? next : seat];
            for (int i = 0; i < MEALS; i++) {
                synchronized (first) {
                    Thread.yield();
                    synchronized (second) {
                        eaten[seat]++;
                    }
                }
            }
        }
    }

    public static void main(String[] args) throws InterruptedException {
        for (int i = 0; i < SEATS; i++) forks[i] = new Object();
        Thread[] threads = new Thread[SEATS];
        for (int i = 0; i < SEATS; i++) threads[i] = Thread.ofVirtual().start(new Philosopher(i));
        for (Thread t : threads) t.join();
        int sum = 0;
        for (int n : eaten) sum += n;
        System.out.println(sum);
    }
}
