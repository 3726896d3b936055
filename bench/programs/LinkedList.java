// links
class LinkedList {
    static final class Node { final int value; Node next; Node(int v, Node n) { value = v; next = n; } }
    Node head; int size;
    void add(int v) { head = new Node(v, head); size++; }
    void reverse() { Node done = null; for (Node n = head; n != null; ) { Node after = n.next; n.next = done; done = n; n = after; } head = done; }
    public static void main(String[] args) { LinkedList l = new LinkedList(); for (int i = 0; i < 5; i++) l.add(i); l.reverse(); for (Node n = l.head; n != null; n = n.next) System.out.println(n.value); }
}
