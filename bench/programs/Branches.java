// links
class Branches {
    static int sign(int x) { if (x < 0) return -1; else if (x > 0) return 1; return 0; }
    static boolean both(boolean a, boolean b, Object o) { return a && !b || o == null && b ^ a; }
    public static void main(String[] args) {
        int n = 0;
        while (n < 10) { if (n == 3) { n += 2; continue; } if (n >= 8) break; n++; }
        do { n -= 2; } while (n > 0 && sign(n) != 0);
        System.out.println(both(n <= 0, n != 1, args) ? n : -n);
    }
}
