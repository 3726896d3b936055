// javac --release 11 -g:none -parameters Greeter.java
@FunctionalInterface
public interface Greeter extends java.util.function.Supplier<String>, Cloneable {
    String GREETING = "Hello";

    default String greeting(String name) {
        return join(GREETING, name);
    }

    static Greeter of(String name) {
        return () -> name;
    }

    private String join(String first, String second) {
        return first + " " + second;
    }
}
