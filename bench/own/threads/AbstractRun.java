/** A thread can't be started once Middle is compiled again, with an abstract run; it stays new. */
class AbstractRun {
    static void start(Thread t) {
        try { t.start(); } catch (AbstractMethodError e) { System.out.println("AbstractMethodError"); }
        System.out.println(t.getState() + " " + t.isAlive());
    }

    public static void main(String[] args) throws InterruptedException {
        Thread t = new Last();
        start(t);
        start(t);
        t.join();
        System.out.println(t.getName());
    }
}

abstract class Middle extends Thread { public void run() {} }

class Last extends Middle {}
