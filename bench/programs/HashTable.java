// links
class HashTable {
    private Object[] keys = new Object[4]; private int[] values = new int[4]; private int size;
    private int slot(Object k) { int i = (k.hashCode() & 0x7fffffff) % keys.length; while (keys[i] != null && !keys[i].equals(k)) i = (i + 1) % keys.length; return i; }
    void put(Object k, int v) { if (2 * size >= keys.length) grow(); int i = slot(k); if (keys[i] == null) { keys[i] = k; size++; } values[i] = v; }
    private void grow() { Object[] ks = keys; int[] vs = values; keys = new Object[2 * ks.length]; values = new int[2 * vs.length]; size = 0; for (int i = 0; i < ks.length; i++) if (ks[i] != null) put(ks[i], vs[i]); }
    public static void main(String[] args) { HashTable t = new HashTable(); for (int i = 0; i < 9; i++) t.put("k" + i % 5, i); System.out.println(t.size + t.values[t.slot("k1")]); }
    public boolean equals(Object o) { return o instanceof HashTable && ((HashTable) o).size == size; } public int hashCode() { return size; }
}
