/** Threads that join one another in a ring wait for ever. Those that have ended, and those that were never started, don't wait. */
class JoinsInARing implements Runnable {
    static volatile Thread last;

    private final Thread before;

    JoinsInARing(Thread before) { this.before = before; }

    public void run() {
        while (last == null) Thread.yield();
        try {
            (before == null ? last : before).join();
        } catch (InterruptedException e) {
            throw new IllegalStateException();
        }
        System.out.println("not reached");
    }

    public static void main(String[] args) throws InterruptedException {
        Thread ended = new Thread();
        ended.start();
        ended.join();
        Thread first = Thread.ofVirtual().start(new JoinsInARing(null));
        Thread notStarted = new Thread();
        Thread second = new Thread(new JoinsInARing(first));
        second.start();
        last = Thread.ofVirtual().start(new JoinsInARing(second));
        notStarted.join();
        System.out.println("main waits for them");
        second.join();
    }
}
