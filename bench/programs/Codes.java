// links
class Codes {
    static final String SIGNS = "ABCDEFGHIJKLMNOPQRSTUVWXYZabcdefghijklmnopqrstuvwxyz0123456789+/";

    static String base64(byte[] b) {
        StringBuilder s = new StringBuilder();
        for (int i = 0; i < b.length; i += 3) {
            int v = (b[i] & 255) << 16 | (i + 1 < b.length ? (b[i + 1] & 255) << 8 : 0) | (i + 2 < b.length ? b[i + 2] & 255 : 0);
            s.append(SIGNS.charAt(v >> 18)).append(SIGNS.charAt(v >> 12 & 63)).append(i + 1 < b.length ? SIGNS.charAt(v >> 6 & 63) : '=').append(i + 2 < b.length ? SIGNS.charAt(v & 63) : '=');
        }
        return s.toString();
    }

    static String runs(String s) { String r = ""; for (int i = 0; i < s.length(); ) { int k = i; while (k < s.length() && s.charAt(k) == s.charAt(i)) k++; r += (k - i > 1 ? "" + (k - i) : "") + s.charAt(i); i = k; } return r; }
    static String expanded(String s) { String r = ""; int n = 0; for (int i = 0; i < s.length(); i++) { char c = s.charAt(i); if (c >= '0' && c <= '9') n = 10 * n + c - '0'; else { do r += c; while (--n > 0); n = 0; } } return r; }

    static String caesar(String s, int by) {
        char[] out = new char[s.length()];
        for (int i = 0; i < out.length; i++) { char c = s.charAt(i); out[i] = c >= 'a' && c <= 'z' ? (char) ((c - 'a' + by + 26) % 26 + 'a') : c >= 'A' && c <= 'Z' ? (char) ((c - 'A' + by + 26) % 26 + 'A') : c; }
        StringBuilder b = new StringBuilder(); for (char c : out) b.append(c);
        return b.toString();
    }

    static String gray(int bits) { String s = ""; for (int n = 0; n < 1 << bits; n++) { int g = n ^ n >> 1; for (int k = bits - 1; k >= 0; k--) s += g >> k & 1; s += " "; } return s; }
    static byte[] bytes(String s) { byte[] b = new byte[s.length()]; for (int i = 0; i < b.length; i++) b[i] = (byte) s.charAt(i); return b; }

    public static void main(String[] args) {
        String[] texts = {"", "M", "Ma", "Man", "pleasure.", "aaabccddddd", "\u00ff\u0080\u0000"};
        for (String t : texts) System.out.println(base64(bytes(t)));
        System.out.println(runs("aaabccddddd") + " " + expanded(runs("aaabccddddd")) + " " + expanded("12x3y"));
        System.out.println(caesar("Hello, World", 13) + " " + caesar(caesar("Hello, World", 13), -13) + " " + caesar("xyz", 3));
        System.out.println(gray(3));
    }
}
