/** What NotifyAmongMany does before its turns. */
public class WaitMany {
    public static void main(String[] args) { Waiting.notifyAmong(90_000, 0); }
}
