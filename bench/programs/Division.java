// links
class Division {
    static String quotient(int a, int b) {
        try { return a / b + " " + a % b; } catch (ArithmeticException e) { return "none"; }
    }

    static String quotient(long a, long b) {
        try { return a / b + " " + a % b; } catch (ArithmeticException e) { return "none"; }
    }

    public static void main(String[] args) {
        int[] ints = {0, 1, -1, 2, -2, 7, -7, Integer.MAX_VALUE, Integer.MIN_VALUE};
        for (int a = 0; a < ints.length; a++)
            for (int b = 0; b < ints.length; b++) System.out.println(ints[a] + " by " + ints[b] + ": " + quotient(ints[a], ints[b]));
        long[] longs = {0L, 1L, -1L, 10L, -10L, Integer.MIN_VALUE, Long.MAX_VALUE, Long.MIN_VALUE};
        for (int a = 0; a < longs.length; a++)
            for (int b = 0; b < longs.length; b++) System.out.println(longs[a] + " by " + longs[b] + ": " + quotient(longs[a], longs[b]));
    }
}
