/** Reads and writes of the elements of arrays. */
public class Arrays {
    public static void main(String[] args) {
        int[] a = new int[64];
        for (int i = 0; i < 1000000; i++) {
            a[i & 63] = a[(i + 1) & 63] + i;
        }
        int sum = 0;
        for (int i = 0; i < a.length; i++) {
            sum = sum + a[i];
        }
        System.out.println(sum);
    }
}
