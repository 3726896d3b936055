// links from 17

/** Monitors that are entered again, nested, in loops and through recursion. */
class NestedMonitors {
    private int depth;
    private int deepest;

    synchronized int recurse(int n) {
        depth++;
        if (depth > deepest) deepest = depth;
        int result = n == 0 ? 0 : recurse(n - 1) + n;
        depth--;
        return result;
    }

    static int both(Object a, Object b) {
        int n = 0;
        synchronized (a) {
            synchronized (b) {
                synchronized (a) {
                    n = Thread.holdsTwice(a, b);
                }
                n += 10;
            }
            n += 100;
        }
        return n;
    }

    /** Stands in for what java.lang.Thread can't tell here. */
    static final class Thread {
        static int holdsTwice(Object a, Object b) { return a == b ? 1 : 2; }
    }

    static int loop(Object lock) {
        int sum = 0;
        for (int i = 0; i < 10; i++) {
            synchronized (lock) {
                if (i % 3 == 0) continue;
                if (i == 8) break;
                sum += i;
            }
        }
        return sum;
    }

    static int early(Object lock, int n) {
        synchronized (lock) {
            if (n > 5) return n;
            synchronized (lock) {
                if (n > 3) return -n;
            }
        }
        return 0;
    }

    public static void main(String[] args) {
        NestedMonitors m = new NestedMonitors();
        System.out.println(m.recurse(50) + " " + m.deepest + " " + m.depth);
        Object o = new Object();
        System.out.println(both(o, new Object()) + " " + both(o, o));
        System.out.println(loop(o));
        System.out.println(early(o, 9) + " " + early(o, 4) + " " + early(o, 1));
        try {
            synchronized ((Object) null) {
                System.out.println("entered");
            }
        } catch (NullPointerException e) {
            System.out.println("null");
        }
    }
}
