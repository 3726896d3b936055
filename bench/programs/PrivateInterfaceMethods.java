// links from 11
class PrivateInterfaceMethods {
    interface Two { private int one() { return 1; } private static int base() { return 40; } default int two() { return one() + base() + 1; } }
    public static void main(String[] args) { System.out.println(new Two() { }.two()); }
}
