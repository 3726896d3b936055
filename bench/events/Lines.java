/** Strings that are joined, and 100,000 lines of output. */
public class Lines {
    public static void main(String[] args) {
        for (int i = 0; i < 100000; i++) {
            System.out.println("line " + i);
        }
    }
}
