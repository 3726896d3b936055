// javac --release 11 Color.java
public enum Color {
    RED,
    GREEN {
        @Override
        int weight() {
            return 2;
        }
    };

    int weight() {
        return ordinal();
    }
}
