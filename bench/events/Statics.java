/** Reads and writes of static fields. */
public class Statics {
    static int sum;
    static int step = 3;

    public static void main(String[] args) {
        for (int i = 0; i < 1000000; i++) {
            sum = sum + step;
        }
        System.out.println(sum);
    }
}
