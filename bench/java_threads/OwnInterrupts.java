/** A virtual thread that interrupts itself, and clears the status. */
public class OwnInterrupts implements Runnable {
    static final int TURNS = 500_000;

    public void run() {
        Thread me = Thread.currentThread();
        for (int i = 0; i < TURNS; i++) {
            me.interrupt();
            Thread.interrupted();
        }
    }

    public static void main(String[] args) throws InterruptedException {
        Thread.ofVirtual().start(new OwnInterrupts()).join();
        System.out.println(TURNS);
    }
}
