// links from 21
class VirtualTree implements Runnable {
    private final int from, to;
    private long sum;

    VirtualTree(int from, int to) { this.from = from; this.to = to; }

    public void run() {
        if (to - from == 1) { sum = (long) from * from; return; }
        int middle = (from + to) / 2;
        VirtualTree left = new VirtualTree(from, middle), right = new VirtualTree(middle, to);
        Thread a = Thread.startVirtualThread(left), b = Thread.startVirtualThread(right);
        try {
            a.join();
            b.join();
        } catch (InterruptedException e) {
            throw new IllegalStateException("interrupted");
        }
        sum = left.sum + right.sum;
    }

    public static void main(String[] args) throws InterruptedException {
        VirtualTree all = new VirtualTree(0, 1000);
        Thread.startVirtualThread(all).join();
        System.out.println(all.sum);
    }
}
