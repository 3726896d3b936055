// javac --release 8 -parameters Switches.java
public class Switches {
    static int ofText(final String text) {
        switch (text) {
            case "one":
                return 1;
            case "Aa":
            case "BB":
                return 2;
            default:
                return 0;
        }
    }

    static int sparse(int n) {
        switch (n) {
            case -1000:
                return 1;
            case 1000000:
                return 2;
            default:
                return n > 7 ? 3 : 4;
        }
    }
}
