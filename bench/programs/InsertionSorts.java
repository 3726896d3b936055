// links
class InsertionSorts {
    static class Item {
        final int key; final char mark;
        Item(int key, char mark) { this.key = key; this.mark = mark; }
        boolean isBefore(Item other) { return key < other.key; }
        @Override public String toString() { return String.valueOf(key) + mark; }
    }

    static void insertion(Item[] a) {
        for (int i = 1; i < a.length; i++) { Item it = a[i]; int k = i; while (k > 0 && it.isBefore(a[k - 1])) { a[k] = a[k - 1]; k--; } a[k] = it; }
    }

    static void bubble(Item[] a) {
        boolean moved;
        do { moved = false; for (int i = 1; i < a.length; i++) if (a[i].isBefore(a[i - 1])) { Item t = a[i]; a[i] = a[i - 1]; a[i - 1] = t; moved = true; } } while (moved);
    }

    static int shell(short[] a) {
        int moves = 0;
        for (int gap : new int[]{23, 10, 4, 1})
            for (int i = gap; i < a.length; i++) { short v = a[i]; int k = i; for (; k >= gap && a[k - gap] > v; k -= gap, moves++) a[k] = a[k - gap]; a[k] = v; }
        return moves;
    }

    static void counting(byte[] a) {
        int[] count = new int[256]; int at = 0;
        for (byte b : a) count[b + 128]++;
        for (int v = -128; v < 128; v++) while (count[v + 128]-- > 0) a[at++] = (byte) v;
    }

    static Item[] items(String keys) { Item[] a = new Item[keys.length()]; for (int i = 0; i < a.length; i++) a[i] = new Item(keys.charAt(i) - '0', (char) ('a' + i)); return a; }
    static String show(Object[] a) { String s = ""; for (Object o : a) s += o + " "; return s; }

    public static void main(String[] args) {
        Item[] one = items("31415926535"), two = items("27182818284");
        insertion(one); bubble(two); System.out.println(show(one)); System.out.println(show(two));
        short[] shorts = new short[60]; for (int i = 0; i < 60; i++) shorts[i] = (short) (i * i * 997);
        System.out.println(shell(shorts)); String s = ""; for (int i = 0; i < 60; i += 7) s += shorts[i] + " "; System.out.println(s);
        byte[] bytes = new byte[50]; for (int i = 0; i < 50; i++) bytes[i] = (byte) (i * 37); counting(bytes);
        s = ""; for (int i = 0; i < 50; i += 6) s += bytes[i] + " "; System.out.println(s);
    }
}
