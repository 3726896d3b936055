// links
class QuickSort {
    static void sort(int[] a, int lo, int hi) { if (lo >= hi) return; int p = a[(lo + hi) >>> 1], i = lo, j = hi; while (i <= j) { while (a[i] < p) i++; while (a[j] > p) j--; if (i <= j) { int t = a[i]; a[i++] = a[j]; a[j--] = t; } } sort(a, lo, j); sort(a, i, hi); }
    public static void main(String[] args) { int[] a = {5, 2, 9, 1, 7, 3}; sort(a, 0, a.length - 1); for (int x : a) System.out.print(x); System.out.println(); }
}
