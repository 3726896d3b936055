// links
class UncaughtIndex {
    static int sum(int[] a, int n) {
        int s = 0;
        for (int i = n; i >= -1; i--) s += a[i];
        return s;
    }

    public static void main(String[] args) {
        System.err.println("an index of -1");
        try { sum(new int[2], 2); } catch (ArrayIndexOutOfBoundsException e) { System.out.println("too large"); }
        System.out.println(sum(new int[]{1, 2, 3}, 2));
    }
}
