// links
class WaitNotify {
    private boolean ready;
    synchronized void set() { ready = true; notifyAll(); notify(); }
    synchronized void await() throws InterruptedException { while (!ready) wait(1000L); if (!ready) wait(); }
    public static void main(String[] args) throws InterruptedException {
        final WaitNotify w = new WaitNotify();
        Thread t = new Thread(new Runnable() { public void run() { w.set(); } }, "setter");
        t.start(); w.await(); t.join(); System.out.println(t.getName());
    }
}
