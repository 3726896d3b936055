/** Two threads that yield in turn, while 90,000 others wait. */
public class AmongMany {
    public static void main(String[] args) { Crowd.yieldAmong(90_000, 100_000); }
}
