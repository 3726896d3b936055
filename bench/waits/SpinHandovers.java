/** Two virtual threads that each spin until it is their turn, and pass it on. */
public class SpinHandovers implements Runnable {
    static final int TURNS = 2_000;
    static volatile int turn;

    private final int number;

    SpinHandovers(int number) { this.number = number; }

    public void run() {
        for (int i = 0; i < TURNS; i++) {
            while (turn != number) Thread.onSpinWait();
            turn = 1 - number;
        }
    }

    public static void main(String[] args) throws InterruptedException {
        Thread[] threads = new Thread[2];
        for (int i = 0; i < 2; i++) threads[i] = Thread.ofVirtual().start(new SpinHandovers(i));
        for (Thread thread : threads) thread.join();
        System.out.println(TURNS);
    }
}
