// links
class Switches {
    static int dense(int x) {
        switch (x) { case 0: return 10; case 1: return 11; case 2: case 3: return 12; case 5: x++; default: return x; }
    }
    static int sparse(int x) {
        int r = 0;
        switch (x) { case -1000000: r = 1; break; case 7: r = 2; case 1 << 20: r += 3; break; default: r = 4; }
        return r;
    }
    static char of(char c) { switch (c) { case 'a': return 'b'; case '\uffff': return 'z'; } return c; }
    public static void main(String[] args) {
        for (int i = -2; i < 8; i++) System.out.println(dense(i) + sparse(i * 7) + of((char) (i + 97)));
    }
}
