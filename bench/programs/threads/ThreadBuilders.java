// links from 21
class ThreadBuilders {
    static final class Teller implements Runnable {
        public void run() {
            Thread self = Thread.currentThread();
            System.out.println("runs '" + self.getName() + "' " + (self.isVirtual() ? "virtual" : "platform") + " " + self.isDaemon());
        }
    }

    static void show(Thread t) throws InterruptedException {
        System.out.println(t.getState() + " " + t.isVirtual() + " " + t.isDaemon() + " '" + t.getName() + "'");
        if (t.getState() == Thread.State.NEW) t.start();
        t.join();
    }

    static void ended(Thread t) throws InterruptedException {
        t.join();
        System.out.println(t.getState() + " '" + t.getName() + "'");
    }

    static void refused(Thread.Builder builder) {
        try { builder.name(null); } catch (NullPointerException e) { System.out.println("no name"); }
        try { builder.unstarted(null); } catch (NullPointerException e) { System.out.println("nothing to run"); }
        try { builder.start(null); } catch (NullPointerException e) { System.out.println("nothing to start"); }
    }

    public static void main(String[] args) throws InterruptedException {
        Teller teller = new Teller();
        show(Thread.ofVirtual().unstarted(teller));
        show(Thread.ofVirtual().name("v").unstarted(teller));
        show(Thread.ofPlatform().unstarted(teller));
        show(Thread.ofPlatform().name("p").unstarted(teller));
        show(Thread.ofPlatform().name("d").daemon().unstarted(teller));
        show(Thread.ofPlatform().daemon(true).name("e").unstarted(teller));
        show(Thread.ofPlatform().daemon().daemon(false).unstarted(teller));
        ended(Thread.ofVirtual().start(teller));
        ended(Thread.ofVirtual().name("started").start(teller));
        ended(Thread.ofPlatform().start(teller));
        ended(Thread.ofPlatform().daemon().name("daemon").start(teller));
        ended(Thread.startVirtualThread(teller));
        // A builder makes any number of threads, and keeps what it was told last.
        Thread.Builder builder = Thread.ofVirtual().name("first");
        ended(builder.start(teller));
        ended(builder.name("second").start(teller));
        show(builder.unstarted(teller));
        builder = Thread.ofPlatform().name("third");
        ended(builder.start(teller));
        show(builder.name("fourth").unstarted(teller));
        refused(Thread.ofVirtual());
        refused(Thread.ofPlatform());
        try { Thread.startVirtualThread(null); } catch (NullPointerException e) { System.out.println("nothing"); }
        System.out.println(Thread.currentThread().isVirtual());
    }
}
