// links
class Brackets {
    // runs a program of the eight signs, over 30 cells
    static String run(String code, String in, int most) {
        byte[] cells = new byte[30]; int at = 0, read = 0; StringBuilder out = new StringBuilder();
        for (int pc = 0, steps = 0; pc < code.length(); pc++, steps++) {
            if (steps == most) return out + "...";
            switch (code.charAt(pc)) {
                case '>': at++; break;
                case '<': at--; break;
                case '+': cells[at]++; break;
                case '-': cells[at]--; break;
                case '.': out.append((char) (cells[at] & 255)); break;
                case ',': cells[at] = read < in.length() ? (byte) in.charAt(read++) : 0; break;
                case '[': if (cells[at] == 0) pc = matching(code, pc, 1); break;
                case ']': if (cells[at] != 0) pc = matching(code, pc, -1); break;
                default:
            }
        }
        return out.toString();
    }

    static int matching(String code, int pc, int way) {
        int depth = 0;
        for (int i = pc; i >= 0 && i < code.length(); i += way) {
            if (code.charAt(i) == '[') depth++; else if (code.charAt(i) == ']') depth--;
            if (depth == 0) return i;
        }
        throw new IllegalStateException("no match for " + pc);
    }

    static boolean isBalanced(String s) {
        char[] open = new char[s.length()]; int n = 0;
        for (int i = 0; i < s.length(); i++)
            switch (s.charAt(i)) {
                case '(': case '[': case '{': open[n++] = s.charAt(i); break;
                case ')': if (n == 0 || open[--n] != '(') return false; break;
                case ']': if (n == 0 || open[--n] != '[') return false; break;
                case '}': if (n == 0 || open[--n] != '{') return false; break;
            }
        return n == 0;
    }

    public static void main(String[] args) {
        System.out.println(run("++++++++[>++++++++<-]>+.+.+.", "", 2000)); System.out.println(run(",[.,]", "echo", 2000)); System.out.println(run(">,[>,]<[.<]", "backwards", 2000));
        System.out.println(run("+[.]", "", 20)); System.out.println((int) run("-.", "", 20).charAt(0));
        try { run("[", "", 9); } catch (IllegalStateException e) { System.out.println(e.getMessage()); }
        try { run("<+", "", 9); } catch (ArrayIndexOutOfBoundsException e) { System.out.println("off the front"); }
        for (String s : new String[]{"", "([]{})", "([)]", "((", "}"}) System.out.println(isBalanced(s));
    }
}
