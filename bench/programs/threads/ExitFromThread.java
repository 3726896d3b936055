// links
class ExitFromThread extends Thread {
    @Override public void run() {
        System.out.println("exits");
        System.exit(300);
        System.out.println("not reached");
    }

    public static void main(String[] args) throws InterruptedException {
        new ExitFromThread().start();
        while (true) Thread.yield();
    }
}
