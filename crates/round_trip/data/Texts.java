// javac --release 11 -encoding UTF-8 Texts.java
public class Texts {
    static final String NUL = "a\0b";
    static final String LATIN = "Grüße, señor";
    static final String GREEK = "αβγ ПРИВЕТ";
    static final String WIDE = "漢字 ￿";
    static final String PAIR = "a 🙂 𝄞";
    static final String HALVES = "\ud83d a \ude42";
    static final String EMPTY = "";

    int größe;

    int 長さ(String 文) {
        return 文.length() + größe;
    }
}
