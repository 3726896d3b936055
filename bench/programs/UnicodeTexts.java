// links
class UnicodeTexts {
    static String hex(char c) { String s = ""; for (int k = 12; k >= 0; k -= 4) s += "0123456789abcdef".charAt(c >> k & 15); return s; }
    static int points(String s) { int n = 0; for (int i = 0; i < s.length(); i++, n++) if (isHigh(s.charAt(i)) && i + 1 < s.length() && isLow(s.charAt(i + 1))) i++; return n; }
    static boolean isHigh(char c) { return c >= '\ud800' && c < '\udc00'; }
    static boolean isLow(char c) { return c >= '\udc00' && c < '\ue000'; }
    static String of(int point) { return point < 0x10000 ? "" + (char) point : "" + (char) (0xd800 + (point - 0x10000 >> 10)) + (char) (0xdc00 + (point & 0x3ff)); }
    static String backwards(String s) {
        StringBuilder b = new StringBuilder();
        for (int i = s.length() - 1; i >= 0; i--) if (isLow(s.charAt(i)) && i > 0 && isHigh(s.charAt(i - 1))) { b.append(s.charAt(i - 1)).append(s.charAt(i)); i--; } else b.append(s.charAt(i));
        return b.toString();
    }

    public static void main(String[] args) {
        String s = "na\u00efve \u20ac5 \u4e2d\u6587 \ud83d\ude00!";
        System.out.println(s); System.out.println(s.length() + " " + points(s) + " " + s.hashCode()); System.out.println(backwards(s));
        String line = ""; for (int i = 0; i < s.length(); i++) line += hex(s.charAt(i)) + " "; System.out.println(line);
        for (int p : new int[]{0x7f, 0x80, 0x7ff, 0x800, 0xfffd, 0x10000, 0x1f680, 0x10ffff}) System.out.println(of(p) + " " + of(p).length());
        System.out.println("\ud83d" + "\ude00"); System.out.println("lone \ud83d here"); System.out.println("\ude00\ud83d");
        char c = '\u00e9'; System.out.println(c); System.out.println((int) c); c++; System.out.print(c); System.out.println((char) (c + 0x100));
        System.out.println("\u00e9".equals("e\u0301") + " " + "\u00e9".concat("\u0301").length() + " tab\tquote\"back\\slash");
    }
}
