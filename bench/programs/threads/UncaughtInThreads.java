// links
class UncaughtInThreads {
    static final class Failure extends RuntimeException {
        Failure(String message) { super(message); }
    }

    static final class Fails implements Runnable {
        private final int how;
        Fails(int how) { this.how = how; }

        public void run() {
            int zero = 0;
            if (how == 0) System.out.println(how / zero);
            if (how == 1) throw new Failure("of a thread");
            if (how == 2) { Object o = "text"; System.out.println((Thread) o); }
            if (how == 3) System.out.println(down(1));
            if (how == 4) { Thread.currentThread().setName("another name"); throw new IllegalStateException(); }
            System.out.println("no failure");
        }

        private int down(int n) { return down(n + 1) + 1; }
    }

    public static void main(String[] args) throws InterruptedException {
        for (int how = 0; how < 6; how++) {
            Thread t = new Thread(new Fails(how));
            t.start();
            t.join();
            System.out.println(t.getName() + " " + t.getState());
        }
        System.out.println("main goes on");
    }
}
