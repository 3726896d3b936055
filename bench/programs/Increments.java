// links
class Increments {
    static long s = 5; int[] a = {1, 2, 3}; long[] b = {4}; int i;
    public static void main(String[] args) {
        Increments x = new Increments(); int k = 0;
        x.a[k++] += x.a[++k]--; x.b[0]++; s = x.b[0]-- + ++s; x.i = x.i++ + ++x.i; k = -k-- - --k; Increments[] all = {x}; all[0].a[all.length]++; all[0].i += s++;
        System.out.println(x.a[0] + x.a[1] + x.a[2] + x.b[0] + s + x.i + k);
    }
}
