// links
class Ciphers {
    static long tea(long block, int[] key) {
        int y = (int) (block >>> 32), z = (int) block, sum = 0;
        for (int i = 0; i < 32; i++) { sum += 0x9e3779b9; y += (z << 4) + key[0] ^ z + sum ^ (z >>> 5) + key[1]; z += (y << 4) + key[2] ^ y + sum ^ (y >>> 5) + key[3]; }
        return (long) y << 32 | z & 0xffffffffL;
    }

    static long back(long block, int[] key) {
        int y = (int) (block >>> 32), z = (int) block, sum = 0x9e3779b9 << 5;
        for (int i = 0; i < 32; i++) { z -= (y << 4) + key[2] ^ y + sum ^ (y >>> 5) + key[3]; y -= (z << 4) + key[0] ^ z + sum ^ (z >>> 5) + key[1]; sum -= 0x9e3779b9; }
        return (long) y << 32 | z & 0xffffffffL;
    }

    static class Rc4 {
        private final byte[] s = new byte[256]; private int i, j;
        Rc4(String key) { for (int k = 0; k < 256; k++) s[k] = (byte) k; for (int k = 0, m = 0; k < 256; k++) { m = m + s[k] + key.charAt(k % key.length()) & 255; swap(k, m); } }
        private void swap(int a, int b) { byte t = s[a]; s[a] = s[b]; s[b] = t; }
        int next() { i = i + 1 & 255; j = j + s[i] & 255; swap(i, j); return s[s[i] + s[j] & 255] & 255; }
    }

    static class Mixer {
        private long a = 1, b = 2;
        long next() { long s = a, t = b; a = t; s ^= s << 23; b = s ^ t ^ s >>> 17 ^ t >>> 26; return b + t; }
        int below(int n) { int r = (int) (next() >>> 33) % n; return r; }
    }

    public static void main(String[] args) {
        int[] key = {0x01234567, 0x89abcdef, 0xfedcba98, 0x76543210};
        for (long block : new long[]{0, -1, 0x123456789abcdefL}) { long c = tea(block, key); System.out.println(c + " " + (back(c, key) == block)); }
        Rc4 rc4 = new Rc4("Key"); String line = ""; for (char c : new char[]{'P', 'l', 'a', 'i', 'n', 't', 'e', 'x', 't'}) line += (rc4.next() ^ c) + " "; System.out.println(line);
        Mixer m = new Mixer(); int[] count = new int[6]; for (int i = 0; i < 600; i++) count[m.below(6)]++;
        for (int n : count) System.out.println(n); System.out.println(m.next());
    }
}
