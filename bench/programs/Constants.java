// links
class Constants {
    static final int A = -1, B = 127, C = 128, D = 32767, E = 32768, F = -2147483648; static final long G = 0, H = 1, I = 2, J = -9223372036854775808L; static final char K = '\u0000'; static final boolean Z = true; static final byte Y = -128; static final short X = -32768; static final String S = "\u0000\ud83d\ude00\ud800";
    public static void main(String[] args) { int z = A + B + C + D + E + F; long q = G + H + I + J; System.out.println(z + q + K + (Z ? 1 : 0) + Y + X + S.length()); }
}
