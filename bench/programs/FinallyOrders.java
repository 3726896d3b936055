// links
class FinallyOrders {
    static String trace = "";

    static int step(String name, int value) { trace += name; return value; }

    static int returns(int n) {
        try { return step("t", n); } finally { step("f", 0); }
    }

    static int overrides(int n) {
        try { return step("t", n); } finally { if (n > 1) return step("F", -n); }
    }

    static int changes(int n) {
        int kept = n;
        try { return kept; } finally { kept += 100; step("c", kept); }
    }

    static int loops(int n) {
        int sum = 0;
        for (int i = 0; i < n; i++) {
            try {
                if (i % 3 == 0) continue;
                if (i == 7) break;
                sum += step("b", i);
            } finally { step("f", 0); sum += 10; }
        }
        return sum;
    }

    static int swallows(int n) {
        while (true) {
            try { if (n == 0) throw new RuntimeException("lost"); n--; } finally { if (n == 0) break; }
        }
        return step("s", n);
    }

    static int nested(int n) {
        try {
            try {
                try { if (n == 0) throw new IllegalStateException("inner"); return step("1", n); }
                finally { step("2", 0); if (n == 1) throw new IllegalArgumentException("middle"); }
            } catch (IllegalStateException e) { step("3", 0); throw new ArithmeticException(e.getMessage()); }
            finally { step("4", 0); }
        } catch (RuntimeException e) { step("(" + e.getMessage() + ")", 0); return -1; }
        finally { step("5", 0); }
    }

    static void show(int value) { System.out.println(value + " " + trace); trace = ""; }

    public static void main(String[] args) {
        for (int n = 0; n < 3; n++) { show(returns(n)); show(overrides(n)); show(changes(n)); show(nested(n)); }
        show(loops(10)); show(swallows(3));
        label:
        for (int i = 0; ; i++) {
            try { for (int j = 0; ; j++) { try { if (i * j == 6) break label; if (j > i) continue label; } finally { step(".", 0); } } }
            finally { step("|", 0); }
        }
        show(0);
    }
}
