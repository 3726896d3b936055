// links from 11
class SpinWait {
    static volatile int value;

    public static void main(String[] args) throws InterruptedException {
        Thread t = new Thread() { @Override public void run() { Thread.onSpinWait(); value = 7; Thread.yield(); } };
        t.start();
        while (value == 0) { Thread.onSpinWait(); Thread.yield(); }
        System.out.println(value);
        t.join();
        Thread.yield();
        System.out.println(t.getState());
    }
}
