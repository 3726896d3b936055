// links from 21

/** Static synchronized methods share the monitor of their class, and that of no other class and no object. */
class ClassMonitors {
    static int count;

    static synchronized void add() {
        int n = count;
        Thread.yield();
        count = n + 1;
    }

    static synchronized int get() { return count; }

    static class Other extends ClassMonitors {
        static int own;

        static synchronized void addOwn() {
            int n = own;
            Thread.yield();
            own = n + 1;
        }
    }

    static final class Adds implements Runnable {
        public void run() {
            for (int i = 0; i < 25; i++) {
                add();
                Other.addOwn();
                Other.add();
            }
        }
    }

    /** While the monitor of ClassMonitors is owned that of Other can be entered. */
    static synchronized void other() throws InterruptedException {
        Thread t = Thread.ofVirtual().start(new Runnable() {
            public void run() {
                Other.addOwn();
                synchronized (new Other()) {
                    Other.addOwn();
                }
            }
        });
        t.join();
        System.out.println(Other.own);
    }

    public static void main(String[] args) throws InterruptedException {
        Thread[] threads = new Thread[6];
        for (int i = 0; i < threads.length; i++) threads[i] = Thread.ofVirtual().start(new Adds());
        for (Thread t : threads) t.join();
        System.out.println(get() + " " + Other.own);
        other();
    }
}
