/** The objects that are there before main, by their numbers, which `hashCode` gives: the streams, the states of a thread, the Strings, and main's array. */
class FirstObjects {
    public static void main(String[] args) {
        System.out.println(System.out.hashCode());
        System.out.println(System.err.hashCode());
        System.out.println(Thread.State.NEW.hashCode());
        System.out.println(Thread.State.TERMINATED.hashCode());
        System.out.println(((Object) args).hashCode());
        System.out.println(args.length);
    }
}
