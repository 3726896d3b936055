// links
class BalancedTree {
    static class Node { int key, height = 1; Node left, right; Node(int key) { this.key = key; } }
    private Node root; private int turns;
    private static int height(Node n) { return n == null ? 0 : n.height; }
    private static void measure(Node n) { int l = height(n.left), r = height(n.right); n.height = 1 + (l > r ? l : r); }
    private Node right(Node n) { Node l = n.left; n.left = l.right; l.right = n; measure(n); measure(l); turns++; return l; }
    private Node left(Node n) { Node r = n.right; n.right = r.left; r.left = n; measure(n); measure(r); turns++; return r; }

    private Node balanced(Node n) {
        measure(n);
        int d = height(n.left) - height(n.right);
        if (d > 1) { if (height(n.left.left) < height(n.left.right)) n.left = left(n.left); return right(n); }
        if (d < -1) { if (height(n.right.right) < height(n.right.left)) n.right = right(n.right); return left(n); }
        return n;
    }

    private Node added(Node n, int key) {
        if (n == null) return new Node(key);
        if (key < n.key) n.left = added(n.left, key); else if (key > n.key) n.right = added(n.right, key); else throw new IllegalArgumentException("twice " + key);
        return balanced(n);
    }

    private Node removed(Node n, int key) {
        if (n == null) throw new IllegalStateException("not there " + key);
        if (key < n.key) n.left = removed(n.left, key);
        else if (key > n.key) n.right = removed(n.right, key);
        else if (n.left == null || n.right == null) return n.left == null ? n.right : n.left;
        else { Node m = n.right; while (m.left != null) m = m.left; n.key = m.key; n.right = removed(n.right, m.key); }
        return balanced(n);
    }

    private static String show(Node n) { return n == null ? "." : "(" + show(n.left) + n.key + show(n.right) + ")"; }
    private static int sum(Node n, int depth) { return n == null ? 0 : n.key * depth + sum(n.left, depth + 1) + sum(n.right, depth + 1); }

    public static void main(String[] args) {
        BalancedTree t = new BalancedTree();
        for (int i = 0; i < 15; i++) t.root = t.added(t.root, i);
        System.out.println(show(t.root) + " " + t.turns);
        for (int k : new int[]{7, 0, 14, 3, 20, 7}) try { t.root = t.removed(t.root, k); System.out.println(show(t.root)); } catch (IllegalStateException e) { System.out.println(e.getMessage()); }
        try { t.added(t.root, 5); } catch (IllegalArgumentException e) { System.out.println(e.getMessage()); }
        BalancedTree big = new BalancedTree(); for (int i = 1; i < 500; i++) big.root = big.added(big.root, i * 211 % 503);
        System.out.println(height(big.root) + " " + big.turns + " " + sum(big.root, 1));
    }
}
