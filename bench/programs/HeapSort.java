// links
class HeapSort {
    interface Order { boolean isBefore(Object a, Object b); }

    static void sink(Object[] a, int i, int n, Order order) {
        while (2 * i + 1 < n) {
            int child = 2 * i + 1;
            if (child + 1 < n && order.isBefore(a[child], a[child + 1])) child++;
            if (!order.isBefore(a[i], a[child])) return;
            Object t = a[i]; a[i] = a[child]; a[child] = t;
            i = child;
        }
    }

    static void sort(Object[] a, Order order) {
        for (int i = a.length / 2 - 1; i >= 0; i--) sink(a, i, a.length, order);
        for (int n = a.length - 1; n > 0; n--) { Object t = a[0]; a[0] = a[n]; a[n] = t; sink(a, 0, n, order); }
    }

    static int compare(String a, String b) {
        for (int i = 0; i < a.length() && i < b.length(); i++) if (a.charAt(i) != b.charAt(i)) return a.charAt(i) - b.charAt(i);
        return a.length() - b.length();
    }

    static class ByText implements Order { public boolean isBefore(Object a, Object b) { return compare((String) a, (String) b) < 0; } }

    static class ByLength extends ByText {
        @Override public boolean isBefore(Object a, Object b) {
            int d = ((String) a).length() - ((String) b).length();
            return d != 0 ? d < 0 : super.isBefore(a, b);
        }
    }

    static void show(String[] words, Order order) {
        sort(words, order);
        String line = "";
        for (int i = 0; i < words.length; i++) line += words[i] + (i + 1 < words.length ? " " : "");
        System.out.println(line);
    }

    public static void main(String[] args) {
        String[] words = {"pear", "fig", "apple", "quince", "date", "plum", "cherry", "kiwi", "lime", "fi", "figs", ""};
        show(words, new ByText()); show(words, new ByLength());
        show(words, new Order() { public boolean isBefore(Object a, Object b) { return compare((String) b, (String) a) < 0; } });
        try { sort(new Object[]{"a", new int[1]}, new ByText()); } catch (ClassCastException e) { System.out.println("ints are no text"); }
    }
}
