/** A virtual thread that reads the clock. */
public class ClockReadings implements Runnable {
    static final int TURNS = 500_000;
    static boolean fell;

    public void run() {
        long last = System.nanoTime();
        for (int i = 0; i < TURNS; i++) {
            long now = System.nanoTime();
            if (now - last < 0) fell = true;
            last = now;
        }
    }

    public static void main(String[] args) throws InterruptedException {
        Thread.ofVirtual().start(new ClockReadings()).join();
        System.out.println(fell);
    }
}
