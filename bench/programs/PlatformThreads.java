// links
class PlatformThreads extends Thread {
    static volatile int done; int n; PlatformThreads(int n) { this.n = n; }
    @Override public void run() { for (int i = 0; i < n; i++) Thread.yield(); more(); }
    static synchronized void more() { done++; }
    public static void main(String[] args) throws Exception {
        PlatformThreads[] ts = new PlatformThreads[3];
        for (int i = 0; i < 3; i++) { ts[i] = new PlatformThreads(i); ts[i].setDaemon(false); ts[i].setName("t" + i); ts[i].start(); }
        for (PlatformThreads t : ts) { t.join(1000); System.out.println(t.isAlive()); System.out.println(t.isDaemon()); }
        System.out.println(Thread.currentThread().getName() + done);
    }
}
