// links from 21
class VirtualForever implements Runnable {
    public void run() { while (true) {} }

    public static void main(String[] args) { Thread.ofVirtual().start(new VirtualForever()); }
}
