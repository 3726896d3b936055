/** 10,000 virtual threads that each loop 2,000 times without a step that others see, and then write a field. */
public class Tasks implements Runnable {
    static int field;

    public void run() {
        int sum = 0;
        for (int j = 0; j < 2_000; j++) sum += j;
        field = sum;
    }

    public static void main(String[] args) throws InterruptedException {
        Thread[] threads = new Thread[10_000];
        for (int i = 0; i < threads.length; i++) threads[i] = Thread.ofVirtual().start(new Tasks());
        for (Thread thread : threads) thread.join();
        System.out.println(field);
    }
}
