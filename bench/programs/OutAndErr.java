// links
class OutAndErr {
    public static void main(String[] args) {
        for (int i = 0; i < 3; i++) {
            System.out.print(i); System.err.print(-i);
            System.out.print(' '); System.err.print(true);
            System.out.println(i * 10000000000L); System.err.println('e');
        }
        System.err.println(); System.err.print((String) null); System.err.println(7L);
        System.out.print("no line end");
    }
}
