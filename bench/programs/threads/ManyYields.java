// links from 21
class ManyYields implements Runnable {
    static final int THREADS = 10_000;
    static final int[] cells = new int[THREADS];

    private final int number;
    ManyYields(int number) { this.number = number; }

    public void run() {
        for (int i = 0; i <= number % 5; i++) {
            Thread.yield();
            cells[number] += number;
        }
    }

    public static void main(String[] args) throws InterruptedException {
        Thread[] threads = new Thread[THREADS];
        for (int i = 0; i < THREADS; i++) threads[i] = Thread.ofVirtual().unstarted(new ManyYields(i));
        for (Thread t : threads) t.start();
        for (Thread t : threads) t.join();
        long sum = 0;
        for (int cell : cells) sum += cell;
        System.out.println(sum);
    }
}
