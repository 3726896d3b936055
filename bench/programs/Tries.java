// links
class Tries {
    static class Node { final Node[] next = new Node[26]; int count; }
    private final Node root = new Node(); private int nodes = 1;

    void add(String w) {
        Node n = root;
        for (int i = 0; i < w.length(); i++) { int c = w.charAt(i) - 'a'; if (n.next[c] == null) { n.next[c] = new Node(); nodes++; } n = n.next[c]; }
        n.count++;
    }

    private Node find(String w) { Node n = root; for (int i = 0; i < w.length() && n != null; i++) n = n.next[w.charAt(i) - 'a']; return n; }
    boolean has(String w) { Node n = find(w); return n != null && n.count > 0; }

    static int under(Node n) { if (n == null) return 0; int s = n.count; for (Node m : n.next) s += under(m); return s; }
    static void list(Node n, String word) { if (n.count > 0) System.out.println(word + (n.count > 1 ? " " + n.count : "")); for (int c = 0; c < 26; c++) if (n.next[c] != null) list(n.next[c], word + (char) ('a' + c)); }

    public static void main(String[] args) {
        Tries t = new Tries();
        for (String w : new String[]{"tea", "ten", "to", "i", "in", "inn", "ten", "teapot", ""}) t.add(w);
        list(t.root, "");
        System.out.println(t.nodes + " " + t.has("te") + " " + t.has("tea") + " " + t.has("teapots") + " " + under(t.find("te")) + " " + under(t.find("x")));
        try { t.add("Ten"); } catch (ArrayIndexOutOfBoundsException e) { System.out.println("no small letter"); }
    }
}
