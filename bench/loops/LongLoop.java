/** Sums longs in a loop. */
public class LongLoop {
    public static void main(String[] args) {
        long sum = 0;
        for (long i = 0; i < 10000000L; i++) {
            sum = sum + (i ^ (sum << 1));
        }
        System.out.println(sum);
    }
}
