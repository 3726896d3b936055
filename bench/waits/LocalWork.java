/** Four virtual threads that each loop a hundred times without a step that others see, and then write a field. */
public class LocalWork extends Four {
    static int field;

    public void run() {
        for (int i = 0; i < 100_000; i++) {
            int sum = 0;
            for (int j = 0; j < 100; j++) sum += j;
            field = sum;
        }
    }

    public static void main(String[] args) throws InterruptedException {
        run(new LocalWork());
        System.out.println(field);
    }
}
