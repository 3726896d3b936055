/** What AmongFew does before its yields. */
public class Few {
    public static void main(String[] args) { Crowd.yieldAmong(10, 0); }
}
