// links
class InnerClasses {
    private int count;
    private static int made;

    class Counter {
        private final String name;
        private int own;
        Counter(String name) { this.name = name; made++; }
        void up() { count++; own += 2; }
        class Reset {
            int back() { int was = own; own = 0; count -= was; return InnerClasses.this.count; }
        }
        @Override public String toString() { return name + own + "/" + InnerClasses.this.count; }
    }

    static class Pair<A, B> {
        final A first; final B second;
        Pair(A first, B second) { this.first = first; this.second = second; }
        <C> Pair<C, B> with(C other) { return new Pair<C, B>(other, second); }
        @Override public String toString() { return "(" + first + ", " + second + ")"; }
    }

    interface Task { int run(int n); }

    static Task adder(final int by) {
        return new Task() {
            int calls;
            @Override public int run(int n) { calls++; return n + by * calls; }
        };
    }

    static Task twice(final Task inner) {
        class Twice implements Task { @Override public int run(int n) { return inner.run(inner.run(n)); } }
        return new Twice();
    }

    Task counting() {
        return new Task() { @Override public int run(int n) { count += n; return count; } };
    }

    public static void main(String[] args) {
        InnerClasses outer = new InnerClasses();
        Counter c = outer.new Counter("c"), d = outer.new Counter("d");
        c.up(); c.up(); d.up();
        Counter.Reset reset = c.new Reset();
        System.out.println(c + " " + d + " " + reset.back() + " " + c + " " + made);
        Pair<String, Counter> pair = new Pair<String, Counter>("left", d);
        System.out.println(pair.with(pair).with("again").second.name + pair);
        Task t = twice(twice(adder(3)));
        System.out.println(t.run(1) + " " + t.run(1) + " " + twice(t).run(0));
        Task k = outer.counting();
        System.out.println(k.run(10) + " " + twice(k).run(1) + " " + outer.count);
    }
}
