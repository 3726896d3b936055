/** Two threads that yield in turn, while 10 others wait. */
public class AmongFew {
    public static void main(String[] args) { Crowd.yieldAmong(10, 100_000); }
}
