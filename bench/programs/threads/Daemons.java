// links
class Daemons {
    static final class Child implements Runnable {
        private final boolean daemon;
        Child(boolean daemon) { this.daemon = daemon; }
        public void run() {
            System.out.println("child of " + (daemon ? "a daemon" : "another") + ": " + new Thread().isDaemon());
        }
    }

    static final class Forever implements Runnable {
        public void run() { while (true) Thread.yield(); }
    }

    static void set(Thread t, boolean on) {
        try {
            t.setDaemon(on);
            System.out.println("set " + t.isDaemon());
        } catch (IllegalThreadStateException e) {
            System.out.println("not set " + t.isDaemon());
        }
    }

    public static void main(String[] args) throws InterruptedException {
        System.out.println(Thread.currentThread().isDaemon());
        set(Thread.currentThread(), true);
        Thread user = new Thread(new Child(false)), daemon = new Thread(new Child(true));
        set(user, true);
        set(user, false);
        set(daemon, true);
        user.start();
        user.join();
        daemon.start();
        daemon.join();
        set(user, true);
        Thread forever = new Thread(new Forever());
        set(forever, true);
        forever.start();
        set(forever, false);
        System.out.println(forever.isAlive());
    }
}
