// links
class Generics {
    interface Function<A, B> { B apply(A a); }
    static class Box<T> { T value; Box(T v) { value = v; } <U> Box<U> map(Function<? super T, ? extends U> f) { return new Box<U>(f.apply(value)); } }
    static class Length implements Function<String, Box<String>> { public Box<String> apply(String s) { return new Box<String>(s + s.length()); } }
    static <T extends Throwable> T same(T t) { return t; }
    public static void main(String[] args) { System.out.println(new Box<String>("abc").map(new Length()).value.value.length()); same(new Error()).getMessage(); }
}
