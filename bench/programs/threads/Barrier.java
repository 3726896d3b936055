// links from 21

/** A barrier for rounds: nobody goes on before all have come. */
class Barrier {
    static final int PARTIES = 8;
    static final int ROUNDS = 12;
    private int waiting;
    private int round;

    synchronized void await() throws InterruptedException {
        int mine = round;
        waiting++;
        if (waiting == PARTIES) {
            waiting = 0;
            round++;
            notifyAll();
            return;
        }
        while (round == mine) wait();
    }

    static final Barrier barrier = new Barrier();
    static final int[] steps = new int[PARTIES];
    static volatile boolean early;

    static final class Party implements Runnable {
        private final int number;
        Party(int number) { this.number = number; }

        public void run() {
            try {
                for (int i = 0; i < ROUNDS; i++) {
                    steps[number]++;
                    barrier.await();
                    for (int n : steps) if (n < i + 1) early = true;
                    barrier.await();
                }
            } catch (InterruptedException e) {
                System.out.println("interrupted");
            }
        }
    }

    public static void main(String[] args) throws InterruptedException {
        Thread[] threads = new Thread[PARTIES];
        for (int i = 0; i < PARTIES; i++) threads[i] = Thread.ofVirtual().start(new Party(i));
        for (Thread t : threads) t.join();
        int sum = 0;
        for (int n : steps) sum += n;
        System.out.println(sum + " " + barrier.round + " " + early);
    }
}
