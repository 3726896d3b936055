// links from 21

/** A thousand threads that sleep for equal and for different times, none of which wakes too early. */
class Sleepers {
    static final int COUNT = 1000;
    static final boolean[] slept = new boolean[COUNT];

    static final class Sleeper implements Runnable {
        private final int number;
        Sleeper(int number) { this.number = number; }
        public void run() {
            long millis = number % 4 == 0 ? 20 : number % 50;
            long before = System.nanoTime();
            try {
                Thread.sleep(millis);
            } catch (InterruptedException e) {
                return;
            }
            slept[number] = System.nanoTime() - before >= millis * 1000000;
        }
    }

    public static void main(String[] args) throws InterruptedException {
        Thread[] threads = new Thread[COUNT];
        for (int i = 0; i < COUNT; i++) threads[i] = Thread.ofVirtual().start(new Sleeper(i));
        int count = 0;
        for (int i = 0; i < COUNT; i++) {
            threads[i].join();
            if (slept[i]) count++;
        }
        System.out.println(count);
    }
}
