// links
class UncaughtNull {
    int[] values;

    int last() { return values[values.length - 1]; }

    public static void main(String[] args) {
        UncaughtNull some = new UncaughtNull();
        some.values = new int[]{4, 5};
        System.out.println(some.last());
        some.values = null;
        try { some.last(); } finally { System.out.println("finally"); }
    }
}
