// links
class UncaughtMine {
    static class Failure extends Exception {
        final int code;
        Failure(int code) { super("failure " + code); this.code = code; }
    }

    static class WorseFailure extends Failure {
        WorseFailure(int code) { super(code + 1); }
        @Override public String getMessage() { return "worse: " + super.getMessage(); }
    }

    static int attempt(int n) throws Failure {
        if (n > 3) throw new WorseFailure(n);
        if (n > 1) throw new Failure(n);
        return n;
    }

    public static void main(String[] args) throws Failure {
        for (int n = 0; n < 4; n++)
            try { System.out.println(attempt(n)); } catch (Failure f) { System.out.println(f.getMessage() + " " + f.code); }
        try { attempt(4); } catch (WorseFailure f) { System.out.println(f.getMessage()); throw f; }
    }
}
