// links
class StartTwice {
    static volatile boolean stop;
    static int runs;

    static final class Spins implements Runnable {
        public void run() { runs++; while (!stop) Thread.yield(); }
    }

    static void again(Thread t) {
        try {
            t.start();
            System.out.println("started");
        } catch (IllegalThreadStateException e) {
            System.out.println("started before");
        }
    }

    public static void main(String[] args) throws InterruptedException {
        again(Thread.currentThread());
        Thread t = new Thread(new Spins());
        again(t);
        again(t);
        stop = true;
        t.join();
        again(t);
        System.out.println(t.getState() + " " + runs);
    }
}
