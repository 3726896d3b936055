// links
class UncaughtInFinally {
    static int depth(int n) {
        try {
            if (n == 0) throw new IllegalStateException("first");
            return depth(n - 1) + 1;
        } finally {
            System.out.println("leaving " + n);
            if (n == 2) throw new UnsupportedOperationException("in place of it");
        }
    }

    public static void main(String[] args) {
        try { depth(1); } catch (IllegalStateException e) { System.out.println(e.getMessage()); }
        depth(4);
    }
}
