// links
class Diamonds {
    interface A { default int f() { return 1; } } interface B extends A { default int f() { return 2; } } interface C extends A {}
    static class D implements B, C {} static class E extends D { public int f() { return B_f() + 10; } int B_f() { return super.f(); } }
    public static void main(String[] args) { A a = new E(); System.out.println(a.f() + ((C) new D()).f()); }
}
