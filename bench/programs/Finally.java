// links
class Finally {
    static int log;
    static int f(int n) {
        try { if (n == 1) return 1; if (n == 2) throw new RuntimeException(); log += 1; }
        catch (RuntimeException e) { log += 10; return 2; }
        finally { log += 100; if (n == 3) return 3; }
        return 4;
    }
    public static void main(String[] args) { System.out.println(f(0) + f(1) * 10 + f(2) * 100 + f(3) * 1000 + log); }
}
