import java.util.concurrent.locks.LockSupport;

/** A permit for a thread that isn't started is lost, so both threads wait for ever. */
class ParkedForEver implements Runnable {
    public void run() { LockSupport.park(); }

    public static void main(String[] args) throws InterruptedException {
        Thread t = Thread.ofVirtual().unstarted(new ParkedForEver());
        LockSupport.unpark(t);
        t.start();
        t.join();
    }
}
