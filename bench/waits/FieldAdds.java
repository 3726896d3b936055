/** Four virtual threads that add to one field, whatever that comes to. */
public class FieldAdds extends Four {
    static int sum;

    public void run() {
        for (int i = 0; i < 250_000; i++) sum++;
    }

    public static void main(String[] args) throws InterruptedException {
        run(new FieldAdds());
        System.out.println(sum > 0);
    }
}
