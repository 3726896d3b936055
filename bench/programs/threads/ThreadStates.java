// links
class ThreadStates {
    static volatile boolean seen;

    /** Waits until a thread is in this state. */
    static void await(Thread t, Thread.State state) { while (t.getState() != state) Thread.yield(); }

    static void show(String what, Thread t) {
        Thread.State state = t.getState();
        System.out.println(what + ": " + state + " " + state.name() + " " + state.ordinal() + " " + t.isAlive());
    }

    static final class Watcher extends Thread {
        private final Thread watched;
        Watcher(Thread watched) { this.watched = watched; }
        @Override public void run() {
            await(watched, Thread.State.WAITING);
            show("main joins", watched);
            show("watcher", this);
        }
    }

    static final class Waiter extends Thread {
        @Override public void run() { while (!seen) Thread.yield(); }
    }

    public static void main(String[] args) throws InterruptedException {
        Thread main = Thread.currentThread();
        show("main", main);
        Watcher watcher = new Watcher(main);
        show("new", watcher);
        watcher.start();
        watcher.join();
        show("ended", watcher);
        Waiter waiter = new Waiter();
        waiter.start();
        show("spins", waiter);
        seen = true;
        waiter.join();
        show("stopped", waiter);
        System.out.println(waiter.getState() == watcher.getState());
        System.out.println(Thread.State.BLOCKED + " " + Thread.State.BLOCKED.ordinal());
        System.out.println(Thread.State.TIMED_WAITING.name() + " " + Thread.State.TIMED_WAITING.ordinal());
    }
}
