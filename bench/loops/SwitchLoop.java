/** A switch in a loop. */
public class SwitchLoop {
    public static void main(String[] args) {
        int sum = 0;
        for (int i = 0; i < 10000000; i++) {
            switch (i & 3) {
                case 0: sum = sum + 1; break;
                case 1: sum = sum + i; break;
                case 2: sum = sum ^ i; break;
                default: sum = sum - 3; break;
            }
        }
        System.out.println(sum);
    }
}
