// links
class Arithmetic {
    public static void main(String[] args) {
        int a = args.length + 7, b = 3;
        System.out.println(a + b - a * b / (b + 1) % 5);
        System.out.println((a << 3) ^ (a >> 1) | (b >>> 2) & ~a);
        a += 5; a -= 2; a *= 3; a /= 2; a %= 7; a <<= 2; a >>= 1; a >>>= 1; a &= 6; a |= 9; a ^= 3;
        System.out.println(-a);
    }
}
