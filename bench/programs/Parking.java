// links
import java.util.concurrent.locks.LockSupport;
class Parking {
    static volatile boolean go;
    public static void main(String[] args) throws InterruptedException {
        Thread t = new Thread(new Runnable() { public void run() { while (!go) { Thread.yield(); LockSupport.park(); } LockSupport.parkNanos(5L); LockSupport.park(this); LockSupport.parkNanos(this, 7L); } });
        t.start(); go = true; LockSupport.unpark(t); LockSupport.unpark(t); t.join(50L); System.out.println("parked");
    }
}
