// javac --release 17 Mark.java Marked.java
import java.lang.annotation.ElementType;
import java.lang.annotation.Target;
import java.util.ArrayList;
import java.util.List;

@Mark(tiny = 1, letter = '\0', part = Float.NaN, ratio = Double.POSITIVE_INFINITY, names = {})
public class Marked<@Marked.Here T> {
    @Target({ElementType.TYPE_USE, ElementType.TYPE_PARAMETER})
    @interface Here {}

    @Deprecated
    @Mark(type = int.class, text = "field")
    List<@Here String> field = new ArrayList<@Here String>();

    @SafeVarargs
    final <U> void call(@Mark(number = 1) U first, int second, @Mark(place = ElementType.METHOD) U... others) throws @Here Exception {
        @Here Object local = (@Here T) null;
    }
}
