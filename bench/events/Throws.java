/** Exceptions that are thrown over three frames. */
public class Throws {
    static int first(int n) {
        return second(n) + 1;
    }

    static int second(int n) {
        return third(n) + 1;
    }

    static int third(int n) {
        if (n >= 0) {
            throw new IllegalStateException();
        }
        return n;
    }

    public static void main(String[] args) {
        int caught = 0;
        for (int i = 0; i < 100000; i++) {
            try {
                first(i);
            } catch (IllegalStateException e) {
                caught++;
            }
        }
        System.out.println(caught);
    }
}
