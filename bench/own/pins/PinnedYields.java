import jvt.Native;

/** A yield under a native frame changes nothing: main's next step follows without an unmount. */
class PinnedYields implements Runnable {
    public void run() {
        Thread.yield();
        Thread.yield();
    }

    public static void main(String[] args) { Native.hold(new PinnedYields()); }
}
