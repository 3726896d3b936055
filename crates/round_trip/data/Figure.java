// javac --release 17 -parameters -g Figure.java
public sealed interface Figure permits Figure.Circle, Figure.Segment {
    record Circle(double radius) implements Figure {
        public Circle {
            if (!(radius >= 0)) {
                throw new IllegalArgumentException();
            }
        }
    }

    record Segment(@Deprecated long from, long to) implements Figure {}

    default double size() {
        if (this instanceof Circle circle) {
            return Math.PI * circle.radius;
        }
        return ((Segment) this).to;
    }
}
