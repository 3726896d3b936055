/** A notification of one of 90,000 threads that wait, which waits again, in each turn. */
public class NotifyAmongMany {
    public static void main(String[] args) { Waiting.notifyAmong(90_000, 100_000); }
}
