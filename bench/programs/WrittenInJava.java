// links
// Calls each method of the built-in classes that is code of its own and not of threads.
class WrittenInJava {
    // An object whose toString is that of Object, with a hash that every JVM gives.
    static class Hashed {
        final int hash;
        Hashed(int hash) { this.hash = hash; }
        public int hashCode() { return hash; }
    }

    // An object that has a text of its own, which may be null.
    static class Named {
        final String name;
        Named(String name) { this.name = name; }
        public String toString() { return name; }
    }

    static void show(Object o) {
        System.out.println(o);
        System.out.print(o);
        System.out.print('|');
        System.out.println(String.valueOf(o));
        System.out.println(new StringBuilder().append(o).append(o).toString());
    }

    static Object required(Object o) {
        try { return java.util.Objects.requireNonNull(o); }
        catch (NullPointerException e) { return "required: " + (e.getMessage() == null); }
    }

    static void states() {
        Thread.State first = Thread.State.NEW, last = Thread.State.TERMINATED;
        System.out.println(first.name() + first.ordinal() + last.toString() + last.ordinal());
        show(Thread.State.TIMED_WAITING);
    }

    public static void main(String[] args) {
        int[] hashes = { 0, 1, 15, 16, 255, 0xabcdef, Integer.MAX_VALUE, Integer.MIN_VALUE, -1 };
        for (int hash : hashes) System.out.println(new Hashed(hash).toString());
        show(new Hashed(0x1f2e3d));
        show(new Named("name"));
        show("a String");
        show(null);
        System.out.println(String.valueOf((Object) new Named(null)) == null);
        System.out.println(required("there") + " " + required(null));
        states();
        try { System.out.println(((Object) null).toString()); }
        catch (NullPointerException e) { System.out.println("no object"); }
    }
}
