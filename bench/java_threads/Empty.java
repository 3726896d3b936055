/** Starts and joins a virtual thread, to measure the start. */
public class Empty implements Runnable {
    public void run() {}

    public static void main(String[] args) throws InterruptedException {
        Thread.ofVirtual().start(new Empty()).join();
        System.out.println(0);
    }
}
