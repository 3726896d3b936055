// links
class Longs {
    static long mix(long x, int n) { return (x << n) ^ (x >>> n) + (x >> 1) * 31L % 1_000_003L; }
    public static void main(String[] args) {
        long x = 0x1234_5678_9abc_def0L, y = -1;
        for (int i = 0; i < 5; i++) { x = mix(x, i); y &= x; y |= 7L; y = -y; }
        System.out.println(x > y ? x / 3 : y - x);
        System.out.println((int) x + (byte) y + (short) x + (char) y);
    }
}
