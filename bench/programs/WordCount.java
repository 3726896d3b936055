// links
class WordCount {
    static class Entry {
        final String word; int count = 1; Entry next;
        Entry(String word, Entry next) { this.word = word; this.next = next; }
    }

    private Entry[] buckets = new Entry[2];
    private int size;

    private int place(String w) { return (w.hashCode() & 0x7fffffff) % buckets.length; }

    void add(String w) {
        for (Entry e = buckets[place(w)]; e != null; e = e.next) if (e.word.equals(w)) { e.count++; return; }
        if (size++ == buckets.length) grow();
        int at = place(w); buckets[at] = new Entry(w, buckets[at]);
    }

    private void grow() {
        Entry[] old = buckets; buckets = new Entry[2 * old.length + 1];
        for (int i = 0; i < old.length; i++)
            while (old[i] != null) { Entry e = old[i]; old[i] = e.next; int at = place(e.word); e.next = buckets[at]; buckets[at] = e; }
    }

    int count(String w) { for (Entry e = buckets[place(w)]; e != null; e = e.next) if (e.word.equals(w)) return e.count; return 0; }

    boolean remove(String w) {
        int at = place(w); Entry before = null;
        for (Entry e = buckets[at]; e != null; before = e, e = e.next)
            if (e.word.equals(w)) { if (before == null) buckets[at] = e.next; else before.next = e.next; size--; return true; }
        return false;
    }

    public static void main(String[] args) {
        String text = "it was the best of times it was the worst of times it was the age of wisdom it was the age of foolishness ";
        WordCount words = new WordCount(); String word = "";
        for (int i = 0; i < text.length(); i++)
            if (text.charAt(i) == ' ') { words.add(word); word = ""; } else word += text.charAt(i);
        System.out.println(words.size + " words");
        for (String w : new String[]{"it", "was", "the", "age", "best", "hope"}) System.out.println(w + " " + words.count(w));
        System.out.println(words.remove("age") + " " + words.remove("age") + " " + words.count("age") + " " + words.size);
    }
}
