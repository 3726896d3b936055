// links
class ExpressionParser {
    static class SyntaxError extends Exception {
        final int at;
        SyntaxError(String m, int at) { super(m); this.at = at; }
    }

    static abstract class Node { abstract long value(long x); }
    static class Number extends Node { final long n; Number(long n) { this.n = n; } long value(long x) { return n; } @Override public String toString() { return "" + n; } }
    static class Variable extends Node { long value(long x) { return x; } @Override public String toString() { return "x"; } }
    static class Binary extends Node {
        final char op; final Node a, b;
        Binary(char op, Node a, Node b) { this.op = op; this.a = a; this.b = b; }
        long value(long x) {
            long l = a.value(x), r = b.value(x);
            switch (op) {
                case '+': return l + r; case '-': return l - r; case '*': return l * r; case '/': return l / r; case '%': return l % r;
                default: long p = 1; for (long i = 0; i < r; i++) p *= l; return p;
            }
        }
        @Override public String toString() { return "(" + a + " " + op + " " + b + ")"; }
    }

    private final String text; private int at;
    ExpressionParser(String text) { this.text = text; }
    private char peek() { while (at < text.length() && text.charAt(at) == ' ') at++; return at < text.length() ? text.charAt(at) : '\0'; }
    private static int level(char c) { switch (c) { case '+': case '-': return 1; case '*': case '/': case '%': return 2; case '^': return 3; default: return 0; } }

    private Node expression(int least) throws SyntaxError {
        Node left = factor();
        while (level(peek()) >= least && level(peek()) > 0) { char op = text.charAt(at++); left = new Binary(op, left, expression(op == '^' ? 3 : level(op) + 1)); }
        return left;
    }

    private Node factor() throws SyntaxError {
        char c = peek();
        if (c == '-') { at++; return new Binary('-', new Number(0), factor()); }
        if (c == '(') { at++; Node n = expression(1); if (peek() != ')') throw new SyntaxError("no )", at); at++; return n; }
        if (c == 'x') { at++; return new Variable(); }
        if (c < '0' || c > '9') throw new SyntaxError(c == '\0' ? "the end" : "a '" + c + "'", at);
        long n = 0; while (at < text.length() && text.charAt(at) >= '0' && text.charAt(at) <= '9') n = 10 * n + text.charAt(at++) - '0';
        return new Number(n);
    }

    Node parse() throws SyntaxError { Node n = expression(1); if (peek() != '\0') throw new SyntaxError("more", at); return n; }

    public static void main(String[] args) {
        String[] all = {"1 + 2 * 3", "(1+2)*3", "2^3^2", "-x + 4 * -(x - 1)", "100 / 7 % 5", "x*x - 10/(x-3)", "9223372036854775807 + 1", "1 +", "(2", "3 $ 4", "", "7 7"};
        for (String s : all)
            try { Node n = new ExpressionParser(s).parse(); System.out.println(n); for (long x = 2; x < 5; x++) System.out.println("  " + n.value(x)); }
            catch (SyntaxError e) { System.out.println(e.getMessage() + " at " + e.at); }
            catch (ArithmeticException e) { System.out.println("  by zero"); }
    }
}
