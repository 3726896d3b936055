// links
class JoinTree extends Thread {
    private final int depth, number;
    private long sum;

    JoinTree(int depth, int number) { this.depth = depth; this.number = number; }

    @Override public void run() {
        sum = number;
        if (depth == 0) return;
        JoinTree left = new JoinTree(depth - 1, 2 * number), right = new JoinTree(depth - 1, 2 * number + 1);
        left.start();
        right.start();
        try {
            right.join();
            left.join();
        } catch (InterruptedException e) {
            throw new IllegalStateException("interrupted");
        }
        sum += left.sum + right.sum;
    }

    public static void main(String[] args) throws InterruptedException {
        for (int depth = 0; depth <= 7; depth++) {
            JoinTree root = new JoinTree(depth, 1);
            root.start();
            root.join();
            System.out.println(depth + " " + root.sum);
        }
    }
}
