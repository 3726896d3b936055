// links from 21

/** Two threads that take turns by wait and notify, and a ring of them. */
class LockTurns {
    static final int TURNS = 100;
    static final Object lock = new Object();
    static int turn;

    static final class Takes implements Runnable {
        private final int mine;
        private final int all;
        static int sum;
        Takes(int mine, int all) { this.mine = mine; this.all = all; }

        public void run() {
            try {
                for (int i = 0; i < TURNS; i++) {
                    synchronized (lock) {
                        while (turn != mine) lock.wait();
                        sum = sum * 3 + mine + 1;
                        turn = (turn + 1) % all;
                        lock.notifyAll();
                    }
                }
            } catch (InterruptedException e) {
                System.out.println("interrupted");
            }
        }
    }

    static void play(int all) throws InterruptedException {
        turn = 0;
        Takes.sum = 0;
        Thread[] threads = new Thread[all];
        for (int i = all - 1; i >= 0; i--) threads[i] = Thread.ofVirtual().start(new Takes(i, all));
        for (Thread t : threads) t.join();
        System.out.println(Takes.sum);
    }

    public static void main(String[] args) throws InterruptedException {
        play(2);
        play(5);
    }
}
