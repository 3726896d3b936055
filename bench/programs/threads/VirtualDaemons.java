// links from 21
class VirtualDaemons implements Runnable {
    static volatile boolean stop;

    public void run() { while (!stop) Thread.yield(); }

    static void set(Thread t, boolean on) {
        try {
            t.setDaemon(on);
            System.out.println("set " + t.isDaemon());
        } catch (IllegalThreadStateException e) {
            System.out.println("live " + t.isDaemon());
        } catch (IllegalArgumentException e) {
            System.out.println("virtual " + t.isDaemon());
        }
    }

    static final class Maker implements Runnable {
        public void run() {
            System.out.println(new Thread().isDaemon());
            System.out.println(Thread.ofPlatform().unstarted(this).isDaemon());
            System.out.println(Thread.ofPlatform().daemon(false).unstarted(this).isDaemon());
            System.out.println(Thread.ofVirtual().unstarted(this).isDaemon());
        }
    }

    public static void main(String[] args) throws InterruptedException {
        Thread t = Thread.ofVirtual().unstarted(new VirtualDaemons());
        set(t, true);
        set(t, false);
        t.start();
        set(t, true);
        set(t, false);
        stop = true;
        t.join();
        set(t, true);
        set(t, false);
        Thread.startVirtualThread(new Maker()).join();
        Thread platform = new Thread(new Maker());
        platform.start();
        platform.join();
        stop = false;
        Thread.startVirtualThread(new VirtualDaemons());
        System.out.println("main returns");
    }
}
