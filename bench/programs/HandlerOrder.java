// links
class HandlerOrder {
    static class A extends RuntimeException { A(String m) { super(m); } }
    static class B extends A { B(String m) { super(m); } }
    static class C extends B { C(String m) { super(m); } }

    static RuntimeException make(int n) {
        switch (n) { case 0: return new A("a"); case 1: return new B("b"); case 2: return new C("c"); default: return new IllegalStateException("i"); }
    }

    static String firstFits(int n) {
        try { throw make(n); }
        catch (C e) { return "C" + e.getMessage(); }
        catch (B e) { return "B" + e.getMessage(); }
        catch (A e) { return "A" + e.getMessage(); }
        catch (RuntimeException e) { return "R" + e.getMessage(); }
    }

    static String innerFirst(int n) {
        try {
            try { throw make(n); } catch (B e) { return "inner " + e.getMessage(); }
        } catch (A e) { return "outer " + e.getMessage(); }
        catch (RuntimeException e) { return "last " + e.getMessage(); }
    }

    static String fromHandler(int n) {
        try {
            try { throw make(n); } catch (A e) { throw new IllegalArgumentException(e.getMessage() + "!"); }
        } catch (IllegalArgumentException e) { return "from handler " + e.getMessage(); }
        catch (RuntimeException e) { return "past it " + e.getMessage(); }
    }

    static String upTheCalls(int n, int depth) {
        if (depth == 0) throw make(n);
        try { return upTheCalls(n, depth - 1); }
        catch (C e) { if (depth < 3) throw e; return "C at " + depth; }
        catch (B e) { if (depth < 5) throw e; return "B at " + depth; }
    }

    static int operandsAreDropped(int n) {
        int sum = 1000;
        for (int i = 0; i < 5; i++) sum += i * (10 + valueOr(n + i, sum % 7));
        return sum;
    }

    static int valueOr(int n, int other) {
        try { return 100 / (n - 3) + other; } catch (ArithmeticException e) { return other; }
    }

    public static void main(String[] args) {
        for (int n = 0; n < 4; n++) System.out.println(firstFits(n) + ", " + innerFirst(n) + ", " + fromHandler(n));
        for (int n = 0; n < 4; n++)
            try { System.out.println(upTheCalls(n, 6)); } catch (RuntimeException e) { System.out.println("main " + e.getMessage()); }
        for (int n = -2; n < 5; n++) System.out.println(operandsAreDropped(n));
    }
}
