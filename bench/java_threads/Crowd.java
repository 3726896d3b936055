/** Threads that wait for main to end, while main and one more thread yield in turn. */
class Crowd implements Runnable {
    static Thread main;

    public void run() {
        try {
            main.join();
        } catch (InterruptedException e) {
            System.out.println(e);
        }
    }

    static void yieldAmong(int waiting, int turns) {
        main = Thread.currentThread();
        for (int i = 0; i < waiting; i++) Thread.ofVirtual().start(new Crowd());
        Thread.yield();
        Thread.ofVirtual().start(new Yielder(turns));
        for (int i = 0; i < turns; i++) Thread.yield();
        System.out.println(waiting);
    }
}

class Yielder implements Runnable {
    private final int turns;

    Yielder(int turns) { this.turns = turns; }

    public void run() {
        for (int i = 0; i < turns; i++) Thread.yield();
    }
}
