// links
class DefaultMethods {
    interface Named { String name(); default String greeting() { return "I am " + name(); } }
    interface Polite extends Named { @Override default String greeting() { return "please, " + Named.super.greeting(); } }
    interface Loud extends Named { @Override default String greeting() { return Named.super.greeting() + "!"; } }
    interface Sized { int size(); default boolean isEmpty() { return size() == 0; } static Sized of(final int n) { return new Sized() { @Override public int size() { return n; } }; } }

    static class Plain implements Named { @Override public String name() { return "plain"; } }
    static class Courteous extends Plain implements Polite { @Override public String name() { return "courteous"; } }
    static class Both implements Polite, Loud {
        @Override public String name() { return "both"; }
        @Override public String greeting() { return Polite.super.greeting() + " and " + Loud.super.greeting(); }
    }
    static class Own extends Courteous { @Override public String greeting() { return "own " + super.greeting(); } }
    static abstract class Half implements Named, Sized { @Override public int size() { return name().length(); } }
    static class Whole extends Half { private final String n; Whole(String n) { this.n = n; } @Override public String name() { return n; } }
    static class Loudest extends Both implements Loud { @Override public String name() { return "loudest"; } }

    interface Counter { int next(); default int skip(int n) { int last = 0; for (int i = 0; i < n; i++) last = next(); return last; } }
    static class Squares implements Counter { int n; @Override public int next() { n++; return n * n; } }
    static class Fast extends Squares { @Override public int skip(int k) { n += k; return n * n; } }

    public static void main(String[] args) {
        Named[] all = {new Plain(), new Courteous(), new Both(), new Own(), new Whole("whole"), new Loudest()};
        for (int i = 0; i < all.length; i++) System.out.println(all[i].greeting());
        System.out.println(new Whole("").isEmpty() + " " + new Whole("x").isEmpty() + " " + Sized.of(0).isEmpty() + " " + Sized.of(3).size());
        Counter[] counters = {new Squares(), new Fast()};
        for (int i = 0; i < counters.length; i++) System.out.println(counters[i].next() + " " + counters[i].skip(4) + " " + counters[i].next());
    }
}
