// links
class Bridges {
    static abstract class Source<T> { abstract T get(); T twice() { get(); return get(); } }
    static class Texts extends Source<String> { int n; String get() { return "t" + n++; } }
    static class Covariant implements Cloneable { Covariant me() { return this; } } static class Sub extends Covariant { Sub me() { return this; } int x = 4; }
    public static void main(String[] args) { System.out.println(new Texts().twice()); System.out.println(new Sub().me().x); Covariant c = new Sub(); System.out.println(c.me() == c); }
}
