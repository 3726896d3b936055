// javac --release 11 -g:none Pair.java
import java.util.List;
import java.util.Map;

public class Pair<A extends Comparable<A>, B extends Number & Runnable> implements Comparable<Pair<A, B>> {
    protected A first;
    protected List<? super B> others;

    public <T extends Throwable> Map<String, T[]> find(A key, int[][] rows) throws T {
        return null;
    }

    @Override
    public int compareTo(Pair<A, B> that) {
        return first.compareTo(that.first);
    }
}
