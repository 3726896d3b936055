// links from 21
class VirtualExit implements Runnable {
    public void run() { System.exit(300); }

    public static void main(String[] args) throws InterruptedException {
        System.out.println(1);
        Thread.ofVirtual().start(new VirtualExit()).join();
        System.out.println(2);
    }
}
