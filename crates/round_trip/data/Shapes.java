// javac --release 8 Shapes.java
import java.util.Iterator;

public class Shapes implements Iterable<Shapes.Square> {
    private int count = 3;

    class Square {
        int side = count;

        int area() {
            return side * side;
        }
    }

    static class Empty extends Shapes {}

    @Override
    public Iterator<Square> iterator() {
        return new Iterator<Square>() {
            int left = count;

            @Override
            public boolean hasNext() {
                return left > 0;
            }

            @Override
            public Square next() {
                left--;
                return new Square();
            }
        };
    }
}
