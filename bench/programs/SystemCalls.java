// links
class SystemCalls {
    public static void main(String[] args) { long t = System.nanoTime(), m = System.currentTimeMillis(); System.err.println(t > 0); System.out.println(m > 0); System.err.print('e'); System.out.print(5L); System.exit(3); }
}
