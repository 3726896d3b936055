// links
class StackMachine {
    private final int[] stack = new int[32]; private int top;
    private final String[] names = new String[8]; private final int[] values = new int[8]; private int known;
    private void push(int v) { stack[top++] = v; }
    private int pop() { return stack[--top]; }

    private int place(String name) {
        for (int i = 0; i < known; i++) if (names[i].equals(name)) return i;
        names[known] = name; return known++;
    }

    private void word(String w) {
        switch (w) {
            case "+": push(pop() + pop()); break;
            case "-": { int b = pop(); push(pop() - b); break; }
            case "*": push(pop() * pop()); break;
            case "/": { int b = pop(); push(pop() / b); break; }
            case "dup": { int a = pop(); push(a); push(a); break; }
            case "swap": { int b = pop(), a = pop(); push(b); push(a); break; }
            case "drop": pop(); break;
            case ".": System.out.println(pop()); break;
            case "?": System.out.println(top); break;
            default:
                if (w.charAt(0) == '=') values[place(rest(w))] = pop();
                else if (w.charAt(0) >= '0' && w.charAt(0) <= '9') push(number(w));
                else if (w.charAt(0) == '$') push(values[place(rest(w))]);
                else throw new UnsupportedOperationException(w);
        }
    }

    private static String rest(String w) { String r = ""; for (int i = 1; i < w.length(); i++) r += w.charAt(i); return r; }
    private static int number(String w) { int n = 0; for (int i = 0; i < w.length(); i++) n = n * 10 + w.charAt(i) - '0'; return n; }

    void run(String program) {
        String w = "";
        for (int i = 0; i <= program.length(); i++)
            if (i == program.length() || program.charAt(i) == ' ') { if (!w.isEmpty()) word(w); w = ""; } else w += program.charAt(i);
    }

    public static void main(String[] args) {
        String[] programs = {"1 2 + 3 * .", "7 dup * dup . 50 swap - .", "6 =n $n $n 1 - * =n $n . ?", "2 0 / .", "+", "1 drop drop", "5 jump", "1 2 3 4 5 6 7 8 9 ? + + + + + + + + ."};
        for (String p : programs)
            try { new StackMachine().run(p); }
            catch (ArithmeticException e) { System.out.println("by zero"); }
            catch (ArrayIndexOutOfBoundsException e) { System.out.println("nothing there"); }
            catch (UnsupportedOperationException e) { System.out.println("what is " + e.getMessage()); }
        String full = ""; for (int i = 0; i < 33; i++) full += i + " ";
        try { new StackMachine().run(full); } catch (IndexOutOfBoundsException e) { System.out.println("full"); }
    }
}
