// links from 17
class PatternsAndBlocks {
    sealed interface S permits A, B {} static final class A implements S { int a = 3; } static final class B implements S {}
    static int f(Object o) { if (o instanceof A x && x.a > 2) return x.a; return o instanceof S ? 1 : 0; }
    static int g(int n) { return switch (n) { case 1, 2 -> 10; case 3 -> { int k = n * 2; yield k; } default -> -1; }; }
    public static void main(String[] args) { System.out.println(f(new A()) + g(2) + g(3)); System.out.println("""
        block""" + g(9)); }
}
