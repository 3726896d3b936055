// links
class Checksums {
    static final int[] TABLE = new int[256];
    static { for (int n = 0; n < 256; n++) { int c = n; for (int k = 0; k < 8; k++) c = (c & 1) != 0 ? 0xedb88320 ^ c >>> 1 : c >>> 1; TABLE[n] = c; } }

    static int crc(String s) { int c = -1; for (int i = 0; i < s.length(); i++) c = TABLE[(c ^ s.charAt(i)) & 255] ^ c >>> 8; return ~c; }
    static long adler(String s) { long a = 1, b = 0; for (int i = 0; i < s.length(); i++) { a = (a + s.charAt(i)) % 65521; b = (b + a) % 65521; } return b << 16 | a; }
    static long fnv(String s) { long h = 0xcbf29ce484222325L; for (int i = 0; i < s.length(); i++) { h ^= s.charAt(i); h *= 0x100000001b3L; } return h; }
    static int murmur(int k) { k ^= k >>> 16; k *= 0x85ebca6b; k ^= k >>> 13; k *= 0xc2b2ae35; return k ^ k >>> 16; }
    static short fletcher(String s) { byte a = 0, b = 0; for (int i = 0; i < s.length(); i++) { a += s.charAt(i); b += a; } return (short) (b << 8 | a & 255); }

    public static void main(String[] args) {
        String[] texts = {"", "a", "123456789", "The quick brown fox jumps over the lazy dog", "\u00ff\u00fe"};
        for (String s : texts) System.out.println(crc(s) + " " + adler(s) + " " + fnv(s) + " " + fletcher(s) + " " + s.hashCode());
        for (int i = -2; i < 3; i++) System.out.println(murmur(i * 1000003));
    }
}
