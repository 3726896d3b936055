// links from 17
class SwitchForms {
    static int dense(int n) {
        return switch (n) { case 0, 1 -> 10; case 2 -> { int k = n; for (int i = 0; i < 3; i++) k += i; yield k; } case 3 -> throw new IllegalStateException("three"); default -> -n; };
    }

    static String text(String s) {
        return switch (s) { case "Aa" -> "first"; case "BB" -> "second"; case "" -> "empty"; case "C#" -> "third"; default -> s + "?"; };
    }

    static int sparse(int n) {
        switch (n) { case Integer.MIN_VALUE: return 1; case -1: return 2; case 1000000: return 3; case Integer.MAX_VALUE: return 4; default: return 0; }
    }

    static int table(int n) {
        int r = 0;
        switch (n) { case Integer.MAX_VALUE - 1: r++; case Integer.MAX_VALUE: r++; case Integer.MAX_VALUE - 2: r += 10; }
        return r;
    }

    static String kind(Object o) {
        if (o instanceof String s && s.length() > 2) return "long text " + s;
        if (o instanceof int[] a) return "ints " + a.length;
        return o instanceof SwitchForms ? "own" : "other";
    }

    public static void main(String[] args) {
        for (int n = -1; n < 5; n++)
            try { System.out.println(dense(n)); } catch (IllegalStateException e) { System.out.println(e.getMessage()); }
        for (String s : new String[]{"Aa", "BB", "", "C#", "D"}) System.out.println(text(s));
        for (int n : new int[]{Integer.MIN_VALUE, -2, -1, 0, 1000000, Integer.MAX_VALUE - 2, Integer.MAX_VALUE - 1, Integer.MAX_VALUE})
            System.out.println(sparse(n) + " " + table(n));
        for (Object o : new Object[]{"ab", "abc", new int[4], new SwitchForms(), null}) System.out.println(kind(o));
        System.out.println("""
            a block of
              text""");
    }
}
