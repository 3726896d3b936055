/** What NotifyAmongFew does before its turns. */
public class WaitFew {
    public static void main(String[] args) { Waiting.notifyAmong(10, 0); }
}
