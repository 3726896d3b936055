// links
class UncaughtOverflow {
    static int forEver(int n) { return forEver(n + 1) + 1; }

    public static void main(String[] args) {
        System.out.println("down");
        System.out.println(forEver(0));
    }
}
