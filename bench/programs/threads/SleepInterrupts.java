// links from 21

/** Sleeps that are interrupted before, while and after they last, and those that last no time. */
class SleepInterrupts {
    static void await(Thread t, Thread.State state) { while (t.getState() != state) Thread.yield(); }

    static void sleep(long millis) {
        try {
            Thread.sleep(millis);
            System.out.println("slept " + Thread.currentThread().isInterrupted());
        } catch (InterruptedException e) {
            System.out.println("interrupted " + Thread.currentThread().isInterrupted());
        }
    }

    static final class Sleeps implements Runnable {
        public void run() { sleep(1000000); }
    }

    static void before() {
        Thread.currentThread().interrupt();
        sleep(1000000);
        Thread.currentThread().interrupt();
        sleep(0);
        sleep(0);
    }

    static void during() throws InterruptedException {
        Thread t = Thread.ofVirtual().start(new Sleeps());
        await(t, Thread.State.TIMED_WAITING);
        t.interrupt();
        t.join();
    }

    static void after() {
        sleep(1);
        Thread.currentThread().interrupt();
        System.out.println(Thread.interrupted() + " " + Thread.interrupted());
        sleep(1);
    }

    static void negative() throws InterruptedException {
        Thread.currentThread().interrupt();
        try {
            Thread.sleep(-1);
        } catch (IllegalArgumentException e) {
            System.out.println("negative " + Thread.interrupted());
        }
    }

    public static void main(String[] args) throws InterruptedException {
        before();
        during();
        after();
        negative();
    }
}
