// links
class Deques {
    interface Source<T> { boolean hasNext(); T next(); }

    static class Deque<T> {
        private static class Link<T> { final T value; Link<T> before, after; Link(T value) { this.value = value; } }
        private final Link<T> end = new Link<T>(null); private int size;
        Deque() { end.before = end; end.after = end; }
        private void insert(Link<T> before, T value) { Link<T> n = new Link<T>(value); n.before = before; n.after = before.after; before.after.before = n; before.after = n; size++; }
        private T remove(Link<T> n) { if (n == end) throw new IllegalStateException("empty"); n.before.after = n.after; n.after.before = n.before; size--; return n.value; }
        void pushFirst(T v) { insert(end, v); }
        void pushLast(T v) { insert(end.before, v); }
        T popFirst() { return remove(end.after); }
        T popLast() { return remove(end.before); }

        Source<T> source(final boolean forward) {
            return new Source<T>() {
                private Link<T> at = end;
                private Link<T> ahead() { return forward ? at.after : at.before; }
                public boolean hasNext() { return ahead() != end; }
                public T next() { at = ahead(); return at.value; }
            };
        }
    }

    static <T> Source<T> every(final int n, final Source<T> of) {
        return new Source<T>() { public boolean hasNext() { return of.hasNext(); } public T next() { T v = of.next(); for (int i = 1; i < n && of.hasNext(); i++) of.next(); return v; } };
    }

    static String join(Source<?> s) { StringBuilder b = new StringBuilder(); while (s.hasNext()) b.append(s.next()).append(s.hasNext() ? ", " : ""); return b.toString(); }

    public static void main(String[] args) {
        Deque<Object> d = new Deque<Object>();
        for (int i = 0; i < 7; i++) if (i % 2 == 0) d.pushLast("e" + i); else d.pushFirst("o" + i);
        System.out.println(join(d.source(true))); System.out.println(join(d.source(false))); System.out.println(join(every(3, d.source(true))));
        System.out.println(d.popFirst() + " " + d.popLast() + " " + d.size);
        Deque<Deque<Object>> nested = new Deque<Deque<Object>>(); nested.pushLast(d); nested.pushLast(new Deque<Object>());
        System.out.println(join(nested.popFirst().source(true)) + "|" + join(nested.popFirst().source(true)) + "|");
        try { nested.popLast(); } catch (IllegalStateException e) { System.out.println(e.getMessage()); }
    }
}
