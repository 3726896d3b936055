// links
class Initializers {
    int a = next(), b; { b = a * 2; if (b > 2) b++; } int c = b + next(); static int n; static int next() { return ++n; }
    Initializers() { c += n; } Initializers(int x) { super(); c = x; }
    public static void main(String[] args) { System.out.println(new Initializers().c + new Initializers(5).b); }
}
