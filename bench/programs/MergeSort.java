// links
class MergeSort {
    static long seed = 42;
    static int random(int n) { seed = seed * 6364136223846793005L + 1442695040888963407L; return (int) ((seed >>> 33) % n); }

    static void sort(int[] a, int[] spare, int from, int to) {
        if (to - from < 2) return;
        int middle = (from + to) >>> 1;
        sort(a, spare, from, middle); sort(a, spare, middle, to);
        int i = from, j = middle;
        for (int k = from; k < to; k++) spare[k] = i < middle && (j >= to || a[i] <= a[j]) ? a[i++] : a[j++];
        for (int k = from; k < to; k++) a[k] = spare[k];
    }

    static boolean isSorted(int[] a) { for (int i = 1; i < a.length; i++) if (a[i - 1] > a[i]) return false; return true; }

    public static void main(String[] args) {
        for (int n = 0; n <= 400; n += 80) {
            int[] a = new int[n];
            long before = 0, after = 0;
            for (int i = 0; i < n; i++) { a[i] = random(1000) - 500; before += (long) a[i] * a[i]; }
            sort(a, new int[n], 0, n);
            for (int i = 0; i < n; i++) after += (long) a[i] * a[i];
            System.out.println(n + " " + isSorted(a) + " " + (before == after) + (n > 0 ? " " + a[0] + " " + a[n / 2] + " " + a[n - 1] : ""));
        }
    }
}
