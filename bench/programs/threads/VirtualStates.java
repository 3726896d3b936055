// links from 21
class VirtualStates {
    static volatile int step;

    static void await(Thread t, Thread.State state) { while (t.getState() != state) Thread.yield(); }

    static final class Watcher implements Runnable {
        private final Thread watched;
        Watcher(Thread watched) { this.watched = watched; }
        public void run() {
            await(watched, Thread.State.WAITING);
            System.out.println("watched " + watched.getState() + " " + watched.isAlive());
            System.out.println("self " + Thread.currentThread().getState());
            step = 1;
        }
    }

    static final class Joiner implements Runnable {
        private final Thread other;
        Joiner(Thread other) { this.other = other; }
        public void run() {
            try { other.join(); } catch (InterruptedException e) { throw new IllegalStateException(); }
        }
    }

    static final class Waiter implements Runnable {
        public void run() { while (step == 0) Thread.yield(); }
    }

    public static void main(String[] args) throws InterruptedException {
        // A thread that joins another one, looked at by a third.
        Thread waiter = Thread.ofVirtual().unstarted(new Waiter());
        Thread joiner = Thread.ofVirtual().unstarted(new Joiner(waiter));
        System.out.println(waiter.getState() + " " + joiner.getState() + " " + joiner.isAlive());
        waiter.start();
        joiner.start();
        Thread watcher = Thread.startVirtualThread(new Watcher(joiner));
        watcher.join();
        joiner.join();
        System.out.println(waiter.getState() + " " + joiner.getState() + " " + joiner.isAlive());
        // Main joins, looked at by a virtual thread; and a virtual thread starts another one.
        step = 0;
        Thread.startVirtualThread(new Watcher(Thread.currentThread())).join();
        System.out.println(step + " " + Thread.currentThread().getState());
        Thread again = Thread.startVirtualThread(new Waiter());
        again.join();
        try { again.start(); } catch (IllegalThreadStateException e) { System.out.println("started before"); }
    }
}
