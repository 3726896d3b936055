package jvt;

/** What javac needs of jvt's own class. A machine of another kind has no native frame here. */
public final class Native {
    private Native() {}

    public static void hold(Runnable body) { body.run(); }
}
