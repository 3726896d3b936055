/** A frame too many and a cell too many throw what can be caught: 2,048 frames and 4,194,304 cells are there. */
class Limits {
    /** Has n + 1 frames on top of main's at once, and gives back n. */
    static int down(int n) { return n == 0 ? 0 : down(n - 1) + 1; }

    public static void main(String[] args) {
        System.out.println(down(2046));
        try { System.out.println(down(2047)); } catch (StackOverflowError e) { System.out.println("frames"); }
        try { int[] all = new int[4194304]; System.out.println(all.length); } catch (OutOfMemoryError e) { System.out.println("cells"); }
    }
}
