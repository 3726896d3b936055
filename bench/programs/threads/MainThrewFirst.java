// links
class MainThrewFirst implements Runnable {
    private final Thread main;

    MainThrewFirst(Thread main) { this.main = main; }

    public void run() {
        while (main.isAlive()) Thread.yield();
        System.out.println("main is " + main.getState());
        throw new IllegalStateException();
    }

    public static void main(String[] args) {
        new Thread(new MainThrewFirst(Thread.currentThread())).start();
        throw new ArithmeticException();
    }
}
