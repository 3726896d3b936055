// links
class JsonReader {
    private final String s; private int at;
    JsonReader(String s) { this.s = s; }

    static class Node { final String key; final Object value; Node next; Node(String key, Object value) { this.key = key; this.value = value; } }
    static class Group { final char open; Node first, last; int size; Group(char open) { this.open = open; } void add(String k, Object v) { Node n = new Node(k, v); if (first == null) first = n; else last.next = n; last = n; size++; } }
    static class Count { final long n; Count(long n) { this.n = n; } }

    private char next() { while (at < s.length() && s.charAt(at) <= ' ') at++; if (at == s.length()) throw new IllegalStateException("end"); return s.charAt(at); }
    private void take(char c) { if (next() != c) throw new IllegalStateException(c + " at " + at); at++; }

    private String text() {
        take('"'); StringBuilder b = new StringBuilder();
        for (; s.charAt(at) != '"'; at++) { char c = s.charAt(at); if (c == '\\') { at++; c = s.charAt(at) == 'n' ? '\n' : s.charAt(at) == 't' ? '\t' : s.charAt(at); } b.append(c); }
        at++; return b.toString();
    }

    private Object word(String w, Object value) { for (int i = 0; i < w.length(); i++, at++) if (s.charAt(at) != w.charAt(i)) throw new IllegalStateException("word at " + at); return value; }

    Object value() {
        char c = next();
        switch (c) {
            case '"': return text();
            case '[': case '{': return group(c);
            case 't': return word("true", "yes"); case 'f': return word("false", "no"); case 'n': return word("null", null);
        }
        boolean less = c == '-'; if (less) at++;
        if (s.charAt(at) < '0' || s.charAt(at) > '9') throw new IllegalStateException("value at " + at);
        long n = 0; for (; at < s.length() && s.charAt(at) >= '0' && s.charAt(at) <= '9'; at++) n = 10 * n + (s.charAt(at) - '0');
        return new Count(less ? -n : n);
    }

    private Group group(char open) {
        Group g = new Group(open); char close = (char) (open + 2);
        take(open);
        if (next() == close) { at++; return g; }
        while (true) {
            String key = null; if (open == '{') { next(); key = text(); take(':'); }
            g.add(key, value());
            if (next() == close) { at++; return g; }
            take(',');
        }
    }

    static void show(Object v, String indent) {
        if (v instanceof Group) { Group g = (Group) v; System.out.println(indent + g.open + g.size); for (Node n = g.first; n != null; n = n.next) { if (n.key != null) System.out.println(indent + " " + n.key); show(n.value, indent + "  "); } }
        else System.out.println(indent + (v instanceof Count ? "" + ((Count) v).n : v instanceof String ? "'" + v + "'" : "nothing"));
    }

    public static void main(String[] args) {
        String[] texts = {"[1, -20, [], {}, [[3]]]", "{\"name\": \"a\\\"b\\n\", \"on\": true, \"list\": [null, false, {\"deep\": 9007199254740993}]}", "[1 2]", "{\"a\" 1}", "[1,", "-", "trie", "\"open"};
        for (String t : texts)
            try { show(new JsonReader(t).value(), ""); }
            catch (IllegalStateException e) { System.out.println("bad: " + e.getMessage()); }
            catch (StringIndexOutOfBoundsException e) { System.out.println("bad: cut"); }
    }
}
