// javac --release 8 -g:none Constants.java
public abstract class Constants {
    static final byte TINY = -7;
    static final short SMALL = 7;
    static final char LETTER = '\uffff';
    static final boolean YES = true;
    static final int NUMBER = Integer.MIN_VALUE;
    static final long LARGE = Long.MAX_VALUE;
    static final float PART = 1.5f;
    static final double RATIO = Double.NaN;
    static final String TEXT = "text";
    final long own = 12345678901L;
    transient volatile double other;

    abstract double sum(float a, long b);

    strictfp double mixed(int n) {
        return n * 3.25 + 1e300 + 2.5f + 123456789012L;
    }
}
