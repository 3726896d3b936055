// links
class Comparisons {
    static int order(long a, long b) { return a < b ? -1 : a > b ? 1 : 0; }

    static int mask(int a, int b) {
        int bits = 0;
        if (a == b) bits |= 1;
        if (a != b) bits |= 2;
        if (a < b) bits |= 4;
        if (a <= b) bits |= 8;
        if (a > b) bits |= 16;
        if (a >= b) bits |= 32;
        if (a < 0) bits |= 64;
        if (b >= 0) bits |= 128;
        return bits;
    }

    static int mask(long a, long b) {
        int bits = 0;
        if (a == b) bits |= 1;
        if (a != b) bits |= 2;
        if (a < b) bits |= 4;
        if (a <= b) bits |= 8;
        if (a > b) bits |= 16;
        if (a >= b) bits |= 32;
        return bits;
    }

    static int refs(Object a, Object b) {
        return (a == b ? 1 : 0) + (a != b ? 2 : 0) + (a == null ? 4 : 0) + (b != null ? 8 : 0);
    }

    public static void main(String[] args) {
        int[] ints = {Integer.MIN_VALUE, -1, 0, 1, Integer.MAX_VALUE};
        for (int a = 0; a < ints.length; a++) {
            String row = "";
            for (int b = 0; b < ints.length; b++) row += mask(ints[a], ints[b]) + " ";
            System.out.println(row);
        }
        long[] longs = {Long.MIN_VALUE, -1L << 32, -1, 0, 1, 1L << 32, Long.MAX_VALUE};
        for (int a = 0; a < longs.length; a++) {
            String row = "";
            for (int b = 0; b < longs.length; b++) row += mask(longs[a], longs[b]) + "/" + order(longs[a], longs[b]) + " ";
            System.out.println(row);
        }
        Object o = new Object(), p = new Object();
        System.out.println(refs(o, o) + " " + refs(o, p) + " " + refs(null, o) + " " + refs(o, null) + " " + refs(null, null));
    }
}
