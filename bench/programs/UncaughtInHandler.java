// links
class UncaughtInHandler {
    static int[] open(int n) { if (n < 0) throw new IllegalArgumentException("negative"); return new int[n]; }

    public static void main(String[] args) {
        int[] some = open(2);
        try {
            some = open(-1);
        } catch (IllegalArgumentException e) {
            System.out.println(e.getMessage() + " " + some.length);
            some = null;
            System.out.println(some[0]);
        } catch (NullPointerException e) {
            System.out.println("a handler doesn't cover the one before");
        } finally {
            System.out.println("finally " + (some == null));
        }
    }
}
