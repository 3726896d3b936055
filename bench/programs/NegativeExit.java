// links
class NegativeExit {
    private final int depth;

    NegativeExit(int depth) {
        this.depth = depth;
        if (depth == 20) System.exit(-depth);
        new NegativeExit(depth + 1);
        System.out.println("not reached");
    }

    public static void main(String[] args) {
        System.err.println("going down");
        try { new NegativeExit(0); } catch (Throwable t) { System.out.println("caught"); }
    }
}
