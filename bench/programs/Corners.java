// links
class Corners {
    public static void main(String[] args) {
        int least = Integer.MIN_VALUE, minusOne = -1, one = 1, two = 2, seven = -7; long wideOne = 1; int twoHundred = 200;
        System.out.println(least / minusOne); System.out.println(least % minusOne);
        System.out.println(one << 33); System.out.println(wideOne << 65);
        System.out.println(seven / two); System.out.println(seven % two); System.out.println(seven >> one); System.out.println(seven >>> 28);
        System.out.println((byte) twoHundred); System.out.println((int) (char) minusOne);
    }
}
