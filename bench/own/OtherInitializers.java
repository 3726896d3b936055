/** What is no class initializer doesn't run: once `$clinit$` is `<clinit>`, a method of instances, and a static one that takes an int. */
class OtherInitializers {
    static int count;

    void $clinit$() { count += 10; }

    static void $clinit$(int n) { count += 100; }

    public static void main(String[] args) { System.out.println(count); }
}
