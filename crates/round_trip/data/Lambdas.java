// javac --release 17 -g Lambdas.java
import java.io.Serializable;
import java.util.function.Function;
import java.util.function.IntBinaryOperator;
import java.util.function.Supplier;

public class Lambdas {
    static final IntBinaryOperator SUM = Integer::sum;

    Supplier<String> named(String name, int n) {
        Runnable plain = () -> System.out.println(name);
        Function<Integer, int[]> made = int[]::new;
        Supplier<Object> kept = (Supplier<Object> & Serializable) () -> n;
        return () -> "name " + name + ", " + n + '\1' + kept.get() + made.apply(n)[0];
    }
}
