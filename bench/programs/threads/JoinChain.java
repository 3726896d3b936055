// links
class JoinChain {
    static volatile boolean go;

    static final class Link implements Runnable {
        private final Thread before;
        private final int number;
        Link(Thread before, int number) { this.before = before; this.number = number; }

        public void run() {
            try {
                if (before != null) before.join();
            } catch (InterruptedException e) {
                throw new IllegalStateException("interrupted");
            }
            while (!go) Thread.yield();
            if (number % 50 == 0) System.out.println("link " + number);
        }
    }

    public static void main(String[] args) throws InterruptedException {
        // Each thread waits for the one before it, and the first one for main.
        Thread[] links = new Thread[301];
        for (int i = 0; i < links.length; i++) {
            links[i] = new Thread(new Link(i == 0 ? null : links[i - 1], i));
            links[i].start();
        }
        for (int i = 1; i < links.length; i++) while (links[i].getState() != Thread.State.WAITING) Thread.yield();
        System.out.println("all wait");
        go = true;
        links[300].join();
        for (int i = 0; i < links.length; i++) if (links[i].isAlive()) System.out.println("alive " + i);
        System.out.println("done");
    }
}
