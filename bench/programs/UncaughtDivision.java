// links
class UncaughtDivision {
    static int z;

    public static void main(String[] args) {
        try { System.out.println(1 / z); } catch (ArithmeticException e) { System.out.println(1); }
        System.out.println(1 / z);
        System.out.println("not reached");
    }
}
