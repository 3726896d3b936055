// links
class Overloads {
    static int f(int x) { return 1; } static int f(long x) { return 2; } static int f(Object o) { return 3; } static int f(String s) { return 4; } static int f(char c) { return 5; } static int f(int... x) { return 6; }
    public static void main(String[] args) { byte b = 1; System.out.println(f(b) + f(1L) * 10 + f(args) * 100 + f("") * 1000 + f('c') * 10000 + f() * 100000 + f(1, 2)); }
}
