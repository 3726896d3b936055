// javac --release 17 Mark.java Marked.java
import java.lang.annotation.ElementType;
import java.lang.annotation.Retention;
import java.lang.annotation.RetentionPolicy;

@Retention(RetentionPolicy.RUNTIME)
public @interface Mark {
    byte tiny() default -1;
    short small() default 300;
    char letter() default 'x';
    int number() default 70000;
    long large() default 1L << 40;
    float part() default 0.5f;
    double ratio() default -0.0;
    boolean flag() default true;
    String text() default "";
    Class<?> type() default Object[].class;
    ElementType place() default ElementType.TYPE;
    Deprecated inner() default @Deprecated(since = "1", forRemoval = false);
    String[] names() default {"a", "b"};
}
