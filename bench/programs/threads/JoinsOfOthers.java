// links
class JoinsOfOthers {
    static volatile boolean go;

    static final class Joins implements Runnable {
        private final Thread[] others;
        Joins(Thread... others) { this.others = others; }
        public void run() {
            try {
                for (Thread t : others) t.join();
            } catch (InterruptedException e) {
                throw new IllegalStateException("interrupted");
            }
            System.out.println(Thread.currentThread().getName() + " joined " + others.length);
        }
    }

    static final class Held implements Runnable {
        public void run() {
            while (!go) Thread.yield();
            System.out.println("goes");
        }
    }

    public static void main(String[] args) throws InterruptedException {
        Thread notStarted = new Thread();
        notStarted.join();
        System.out.println(notStarted.getState());
        Thread ended = new Thread(new Joins(), "ended");
        ended.start();
        ended.join();
        ended.join();
        Thread both = new Thread(new Joins(ended, notStarted, ended), "both");
        both.start();
        both.join();
        // Many threads wait for one; each joins the one before it too.
        Thread held = new Thread(new Held(), "held");
        held.start();
        Thread[] waiting = new Thread[20];
        for (int i = 0; i < waiting.length; i++) {
            waiting[i] = new Thread(i == 0 ? new Joins(held) : new Joins(held, waiting[i - 1]), "w" + i);
            waiting[i].start();
        }
        for (Thread t : waiting) while (t.getState() != Thread.State.WAITING) Thread.yield();
        go = true;
        waiting[19].join();
        for (Thread t : waiting) t.join();
        Thread nobody = null;
        try { nobody.join(); } catch (NullPointerException e) { System.out.println("nobody"); }
    }
}
