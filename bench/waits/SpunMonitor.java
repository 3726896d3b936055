/** A virtual thread that enters a monitor 100,000 times, beside one that spins. */
public class SpunMonitor implements Runnable {
    int sum;

    public void run() {
        for (int i = 0; i < 100_000; i++) add();
    }

    synchronized void add() { sum++; }

    public static void main(String[] args) throws InterruptedException {
        Thread[] spinners = Spinner.start(1);
        SpunMonitor adds = new SpunMonitor();
        Thread thread = Thread.ofVirtual().start(adds);
        thread.join();
        Spinner.end(spinners);
        System.out.println(adds.sum);
    }
}
