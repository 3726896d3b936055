// links
class UncaughtMemory {
    public static void main(String[] args) {
        try {
            Object[] big = new Object[Integer.MAX_VALUE];
            System.out.println(big.length);
        } catch (OutOfMemoryError e) {
            System.out.println("caught once");
        }
        byte[] bytes = new byte[Integer.MAX_VALUE];
        System.out.println(bytes.length);
    }
}
