/** Objects with constructors. */
public class Objects {
    int x;
    int y;

    Objects(int x, int y) {
        this.x = x;
        this.y = y;
    }

    public static void main(String[] args) {
        int sum = 0;
        for (int i = 0; i < 500000; i++) {
            Objects o = new Objects(i, sum);
            sum = sum + o.x;
        }
        System.out.println(sum);
    }
}
