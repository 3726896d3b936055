// links
class LongSwitchLoop {
    static int step(int state, char c) { switch (state) { case 0: switch (c) { case ' ': return 0; case '-': return 1; default: return c >= '0' && c <= '9' ? 2 : 3; } case 1: case 2: if (c >= '0' && c <= '9') return 2; return 3; default: return 3; } }
    public static void main(String[] args) { String s = " -42x"; int st = 0; for (int i = 0; i < s.length(); i++) { st = step(st, s.charAt(i)); System.out.println(st); } }
}
