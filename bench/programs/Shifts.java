// links
class Shifts {
    public static void main(String[] args) {
        int[] ints = {1, -1, 0x12345678, Integer.MIN_VALUE, Integer.MAX_VALUE, -7};
        int[] counts = {0, 1, 4, 28, 31, 32, 33, 63, 64, -1, -31, -33, Integer.MIN_VALUE, Integer.MAX_VALUE};
        for (int i = 0; i < ints.length; i++) {
            int left = 0, right = 0, zero = 0;
            for (int k = 0; k < counts.length; k++) {
                left = left * 31 + (ints[i] << counts[k]);
                right = right * 31 + (ints[i] >> counts[k]);
                zero = zero * 31 + (ints[i] >>> counts[k]);
            }
            System.out.println(left + " " + right + " " + zero);
        }
        long[] longs = {1L, -1L, 0x123456789abcdefL, Long.MIN_VALUE, Long.MAX_VALUE, -7L};
        for (int i = 0; i < longs.length; i++) {
            long left = 0, right = 0, zero = 0;
            for (int k = 0; k < counts.length; k++) {
                left = left * 31 + (longs[i] << counts[k]);
                right = right * 31 + (longs[i] >> counts[k]);
                zero = zero * 31 + (longs[i] >>> counts[k]);
            }
            System.out.println(left + " " + right + " " + zero);
        }
        int one = 1, thirtyThree = 33; long wideOne = 1L; int sixtyFive = 65;
        System.out.println(one << thirtyThree); System.out.println(wideOne << sixtyFive);
        System.out.println(one << 65L); System.out.println(wideOne << (long) thirtyThree);
        int seven = -7; System.out.println(seven >> one); System.out.println(seven >>> 28);
        System.out.println((byte) (seven >>> 4) + " " + (char) (seven >>> 25) + " " + (short) (seven << 13));
    }
}
