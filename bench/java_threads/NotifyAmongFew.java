/** A notification of one of 10 threads that wait, which waits again, in each turn. */
public class NotifyAmongFew {
    public static void main(String[] args) { Waiting.notifyAmong(10, 100_000); }
}
