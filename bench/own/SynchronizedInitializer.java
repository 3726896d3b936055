/** A class initializer, once `$clinit$` is `<clinit>`, of whose flags only that of static means something. */
class SynchronizedInitializer {
    static int count;

    static synchronized void $clinit$() { count = 7; }

    public static void main(String[] args) { System.out.println(count); }
}
