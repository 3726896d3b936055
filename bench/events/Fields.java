/** Reads and writes of fields of objects. */
public class Fields {
    int sum;
    int step = 3;

    public static void main(String[] args) {
        Fields f = new Fields();
        for (int i = 0; i < 1000000; i++) {
            f.sum = f.sum + f.step;
        }
        System.out.println(f.sum);
    }
}
