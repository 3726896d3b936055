// links
class Sha256 {
    private final int[] h = {0x6a09e667, 0xbb67ae85, 0x3c6ef372, 0xa54ff53a, 0x510e527f, 0x9b05688c, 0x1f83d9ab, 0x5be0cd19};
    private static final int[] K = {
        0x428a2f98, 0x71374491, 0xb5c0fbcf, 0xe9b5dba5, 0x3956c25b, 0x59f111f1, 0x923f82a4, 0xab1c5ed5,
        0xd807aa98, 0x12835b01, 0x243185be, 0x550c7dc3, 0x72be5d74, 0x80deb1fe, 0x9bdc06a7, 0xc19bf174,
        0xe49b69c1, 0xefbe4786, 0x0fc19dc6, 0x240ca1cc, 0x2de92c6f, 0x4a7484aa, 0x5cb0a9dc, 0x76f988da,
        0x983e5152, 0xa831c66d, 0xb00327c8, 0xbf597fc7, 0xc6e00bf3, 0xd5a79147, 0x06ca6351, 0x14292967,
        0x27b70a85, 0x2e1b2138, 0x4d2c6dfc, 0x53380d13, 0x650a7354, 0x766a0abb, 0x81c2c92e, 0x92722c85,
        0xa2bfe8a1, 0xa81a664b, 0xc24b8b70, 0xc76c51a3, 0xd192e819, 0xd6990624, 0xf40e3585, 0x106aa070,
        0x19a4c116, 0x1e376c08, 0x2748774c, 0x34b0bcb5, 0x391c0cb3, 0x4ed8aa4a, 0x5b9cca4f, 0x682e6ff3,
        0x748f82ee, 0x78a5636f, 0x84c87814, 0x8cc70208, 0x90befffa, 0xa4506ceb, 0xbef9a3f7, 0xc67178f2};

    static int turned(int x, int n) { return x >>> n | x << -n; }

    void block(byte[] m, int at) {
        int[] w = new int[64];
        for (int i = 0; i < 16; i++) w[i] = (m[at + 4 * i] & 255) << 24 | (m[at + 4 * i + 1] & 255) << 16 | (m[at + 4 * i + 2] & 255) << 8 | m[at + 4 * i + 3] & 255;
        for (int i = 16; i < 64; i++) {
            int s0 = turned(w[i - 15], 7) ^ turned(w[i - 15], 18) ^ w[i - 15] >>> 3, s1 = turned(w[i - 2], 17) ^ turned(w[i - 2], 19) ^ w[i - 2] >>> 10;
            w[i] = w[i - 16] + s0 + w[i - 7] + s1;
        }
        int[] v = new int[8];
        for (int i = 0; i < 8; i++) v[i] = h[i];
        for (int i = 0; i < 64; i++) {
            int s1 = turned(v[4], 6) ^ turned(v[4], 11) ^ turned(v[4], 25), ch = v[4] & v[5] ^ ~v[4] & v[6], t1 = v[7] + s1 + ch + K[i] + w[i];
            int s0 = turned(v[0], 2) ^ turned(v[0], 13) ^ turned(v[0], 22), maj = v[0] & v[1] ^ v[0] & v[2] ^ v[1] & v[2];
            for (int k = 7; k > 0; k--) v[k] = v[k - 1];
            v[4] += t1; v[0] = t1 + s0 + maj;
        }
        for (int i = 0; i < 8; i++) h[i] += v[i];
    }

    static String of(String text) {
        int n = text.length(), blocks = (n + 8) / 64 + 1;
        byte[] m = new byte[64 * blocks];
        for (int i = 0; i < n; i++) m[i] = (byte) text.charAt(i);
        m[n] = (byte) 0x80;
        for (int i = 0; i < 8; i++) m[m.length - 1 - i] = (byte) (8L * n >>> 8 * i);
        Sha256 sha = new Sha256();
        for (int b = 0; b < blocks; b++) sha.block(m, 64 * b);
        StringBuilder hex = new StringBuilder();
        for (int word : sha.h) for (int s = 28; s >= 0; s -= 4) hex.append("0123456789abcdef".charAt(word >>> s & 15));
        return hex.toString();
    }

    public static void main(String[] args) {
        System.out.println(of("abc")); System.out.println(of(""));
        System.out.println(of("abcdbcdecdefdefgefghfghighijhijkijkljklmklmnlmnomnopnopq"));
    }
}
