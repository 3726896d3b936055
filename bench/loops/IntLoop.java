/** Sums ints in a loop. */
public class IntLoop {
    public static void main(String[] args) {
        int sum = 0;
        for (int i = 0; i < 10000000; i++) {
            sum = sum + (i ^ (sum << 1));
        }
        System.out.println(sum);
    }
}
