// links
class Exceptions {
    static class Mine extends Exception { final int code; Mine(int c) { super("mine " + c); code = c; } }
    static int risky(int n) throws Mine { if (n > 2) throw new Mine(n); if (n == 0) throw new IllegalStateException("zero"); return n; }
    public static void main(String[] args) {
        for (int i = 0; i < 5; i++) {
            try { System.out.println(risky(i)); }
            catch (Mine e) { System.out.println(e.getMessage() + e.code); }
            catch (IllegalStateException | ArithmeticException e) { System.out.println(e.toString()); }
        }
    }
}
