/** Main spins for each virtual thread that it starts until that has run. */
public class SpinStarts implements Runnable {
    static volatile int done;

    public void run() { done++; }

    public static void main(String[] args) {
        Runnable one = new SpinStarts();
        for (int i = 0; i < 500; i++) {
            Thread.ofVirtual().start(one);
            while (done == i) Thread.onSpinWait();
        }
        System.out.println(done);
    }
}
