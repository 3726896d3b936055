// links
// The texts of numbers, in decimal and in hexadecimal, and text that isn't ASCII (Unicode 3.9, table 3-6).
class WrittenNumbers {
    // An object whose toString is that of Object, which ends with the hash in hexadecimal.
    static class Hashed {
        final int hash;
        Hashed(int hash) { this.hash = hash; }
        public int hashCode() { return hash; }
    }

    public static void main(String[] args) {
        int[] ints = {0, Integer.MIN_VALUE, 110767};
        for (int n : ints) System.out.println(String.valueOf(n) + " " + new Hashed(n));
        System.out.println(String.valueOf(-1234567890123L).hashCode());
        String[] texts = {"M", "\u0430", "\u4e8c", "\ud800\udf02", "\ud800A\udc00\udbff"};
        for (String text : texts) System.out.println(text);
    }
}
