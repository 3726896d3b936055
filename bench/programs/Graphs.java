// links
class Graphs {
    static class Edge { final int to; final int length; final Edge next; Edge(int to, int length, Edge next) { this.to = to; this.length = length; this.next = next; } }
    private final Edge[] edges; private final String names;
    Graphs(String names) { this.names = names; edges = new Edge[names.length()]; }
    private int at(char c) { for (int i = 0; i < names.length(); i++) if (names.charAt(i) == c) return i; throw new IllegalArgumentException("no place " + c); }
    void add(char a, char b, int length) { int i = at(a), j = at(b); edges[i] = new Edge(j, length, edges[i]); edges[j] = new Edge(i, length, edges[j]); }

    long[] distances(char from, int[] before) {
        long[] d = new long[edges.length]; boolean[] done = new boolean[d.length];
        for (int i = 0; i < d.length; i++) { d[i] = Long.MAX_VALUE; before[i] = -1; }
        d[at(from)] = 0;
        while (true) {
            int best = -1;
            for (int i = 0; i < d.length; i++) if (!done[i] && d[i] != Long.MAX_VALUE && (best < 0 || d[i] < d[best])) best = i;
            if (best < 0) return d;
            done[best] = true;
            for (Edge e = edges[best]; e != null; e = e.next) if (d[best] + e.length < d[e.to]) { d[e.to] = d[best] + e.length; before[e.to] = best; }
        }
    }

    String path(int[] before, int to) { return before[to] < 0 ? "" + names.charAt(to) : path(before, before[to]) + names.charAt(to); }

    String depthFirst(int i, boolean[] seen) { if (seen[i]) return ""; seen[i] = true; String s = "" + names.charAt(i); for (Edge e = edges[i]; e != null; e = e.next) s += depthFirst(e.to, seen); return s; }

    String breadthFirst(int from) {
        int[] queue = new int[edges.length]; boolean[] seen = new boolean[edges.length]; int head = 0, tail = 0; String s = "";
        queue[tail++] = from; seen[from] = true;
        while (head < tail) { int i = queue[head++]; s += names.charAt(i); for (Edge e = edges[i]; e != null; e = e.next) if (!seen[e.to]) { seen[e.to] = true; queue[tail++] = e.to; } }
        return s;
    }

    static int root(int[] p, int i) { while (p[i] != i) i = p[i] = p[p[i]]; return i; }
    int parts() { int[] p = new int[edges.length]; int n = p.length; for (int i = 0; i < p.length; i++) p[i] = i; for (int i = 0; i < p.length; i++) for (Edge e = edges[i]; e != null; e = e.next) { int a = root(p, i), b = root(p, e.to); if (a != b) { p[a] = b; n--; } } return n; }

    public static void main(String[] args) {
        Graphs g = new Graphs("abcdefgh"); String roads = "ab4ac2bc1bd5cd8ce9de2gh1";
        for (int i = 0; i < roads.length(); i += 3) g.add(roads.charAt(i), roads.charAt(i + 1), roads.charAt(i + 2) - '0');
        int[] before = new int[8]; long[] d = g.distances('a', before);
        for (int i = 0; i < 8; i++) System.out.println(g.names.charAt(i) + " " + (d[i] == Long.MAX_VALUE ? "none" : d[i] + " " + g.path(before, i)));
        System.out.println(g.depthFirst(0, new boolean[8]) + " " + g.breadthFirst(0) + " " + g.parts());
        try { g.add('a', 'z', 1); } catch (IllegalArgumentException e) { System.out.println(e.getMessage()); }
    }
}
