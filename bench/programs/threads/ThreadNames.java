// links
class ThreadNames {
    static final class Teller implements Runnable {
        public void run() {
            Thread self = Thread.currentThread();
            System.out.println(self.getName());
            self.setName(self.getName() + "-renamed");
        }
    }

    static final class Named extends Thread {
        Named() {}
        Named(String name) { super(name); }
        Named(Runnable target) { super(target); }
        Named(Runnable target, String name) { super(target, name); }
    }

    static void show(Thread t) throws InterruptedException {
        t.start();
        t.join();
        System.out.println(t.getName() + " " + t.isAlive());
    }

    static void refused(String name) {
        try {
            new Thread(name);
        } catch (NullPointerException e) {
            System.out.println("no name");
        }
        try {
            Thread.currentThread().setName(name);
        } catch (NullPointerException e) {
            System.out.println("still " + Thread.currentThread().getName());
        }
    }

    public static void main(String[] args) throws InterruptedException {
        System.out.println(Thread.currentThread().getName());
        Teller teller = new Teller();
        show(new Thread(teller));
        show(new Thread(teller, "with a name"));
        show(new Thread("only a name"));
        show(new Thread());
        show(new Named());
        show(new Named("own"));
        show(new Named(teller));
        show(new Named(teller, ""));
        refused(null);
        show(new Thread(teller));
        Thread t = new Thread(teller);
        t.setName("before the start");
        show(t);
        t.setName("after the end");
        System.out.println(t.getName());
        Thread.currentThread().setName("still main");
        System.out.println(Thread.currentThread().getName());
    }
}
