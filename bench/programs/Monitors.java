// links
class Monitors {
    private int n; private static int all; private final Object lock = new Object();
    synchronized void up() { n++; } static synchronized void upAll() { all++; }
    int both() { synchronized (this) { synchronized (lock) { if (n > 3) return n; n += 2; } } return -n; }
    public static void main(String[] args) { Monitors m = new Monitors(); m.up(); upAll(); System.out.println(m.both() + m.both() + all); synchronized (args) { System.out.println(args.length); } }
}
