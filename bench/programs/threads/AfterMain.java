// links
class AfterMain implements Runnable {
    private final Thread before;
    private final String text;

    AfterMain(Thread before, String text) { this.before = before; this.text = text; }

    /** Goes on when main has returned, and the thread before this one has ended. */
    public void run() {
        while (before.isAlive()) Thread.yield();
        System.out.println(text + " after " + before.getName() + ", which is " + before.getState());
    }

    public static void main(String[] args) {
        Thread before = Thread.currentThread();
        for (int i = 0; i < 5; i++) {
            Thread t = new Thread(new AfterMain(before, "thread " + i), "t" + i);
            t.start();
            before = t;
        }
        System.out.println("main returns");
    }
}
