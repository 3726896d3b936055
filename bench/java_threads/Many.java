/** What AmongMany does before its yields. */
public class Many {
    public static void main(String[] args) { Crowd.yieldAmong(90_000, 0); }
}
