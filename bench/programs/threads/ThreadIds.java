// links from 21
class ThreadIds extends Thread {
    private long seen;

    @Override public void run() { seen = Thread.currentThread().threadId(); }

    public static void main(String[] args) throws InterruptedException {
        System.out.println(Thread.currentThread().threadId() > 0);
        Thread[] threads = { new Thread(), new ThreadIds(), Thread.ofVirtual().unstarted(new ThreadIds()), new ThreadIds() };
        boolean rising = true;
        for (int i = 1; i < threads.length; i++) if (threads[i - 1].threadId() >= threads[i].threadId()) rising = false;
        System.out.println(rising);
        for (Thread t : threads) { t.start(); t.join(); }
        for (Thread t : threads) if (t instanceof ThreadIds) System.out.println(((ThreadIds) t).seen == t.threadId());
    }
}
