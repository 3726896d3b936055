// links
class Narrowing {
    static byte octet; static char unit; static short half; static boolean flag;
    byte ownOctet; char ownUnit; short ownHalf; boolean ownFlag;

    static byte toByte(int n) { return (byte) n; }
    static char toChar(int n) { return (char) n; }
    static short toShort(int n) { return (short) n; }
    static boolean odd(int n) { return (n & 1) != 0; }

    static void show(int n) {
        octet = (byte) n; unit = (char) n; half = (short) n; flag = odd(n);
        Narrowing own = new Narrowing();
        own.ownOctet = (byte) (n + 1); own.ownUnit = (char) (n + 1); own.ownHalf = (short) (n + 1); own.ownFlag = odd(n + 1);
        System.out.println(n + ": " + octet + " " + (int) unit + " " + half + " " + flag);
        System.out.println("  " + own.ownOctet + " " + (int) own.ownUnit + " " + own.ownHalf + " " + own.ownFlag);
        System.out.println("  " + toByte(n) + " " + (int) toChar(n) + " " + toShort(n) + " " + (long) toByte(~n));
        byte[] octets = {(byte) n}; char[] units = {(char) n}; short[] halves = {(short) n}; boolean[] flags = {odd(n)};
        octets[0]++; units[0]--; halves[0] += 3; flags[0] ^= true;
        System.out.println("  " + octets[0] + " " + (int) units[0] + " " + halves[0] + " " + flags[0]);
    }

    static void wide(long n) {
        System.out.println((int) n + " " + (byte) n + " " + (short) n + " " + (int) (char) n + " " + (n == (int) n));
    }

    public static void main(String[] args) {
        int[] corners = {0, 1, -1, 127, 128, 200, 255, 256, -128, -129, 32767, 32768, 65535, 65536, -32768, -32769,
            Integer.MAX_VALUE, Integer.MIN_VALUE};
        for (int i = 0; i < corners.length; i++) show(corners[i]);
        long[] longs = {0L, -1L, 1L << 31, 1L << 32, (1L << 32) + 200, Long.MAX_VALUE, Long.MIN_VALUE, 0x123456789abcdefL};
        for (int i = 0; i < longs.length; i++) wide(longs[i]);
        byte b = 100; b += 100; b >>>= 1; System.out.println(b);
        char c = 'a'; c += 1; c *= 300; System.out.println((int) c);
        short s = -1; s >>>= 10; s /= 7; System.out.println(s);
        int i = 'x' + (byte) 300 - (short) 70000; System.out.println(i);
    }
}
