// links
class SwitchEdges {
    static int low(int n) { switch (n) { case Integer.MIN_VALUE: return 0; case Integer.MIN_VALUE + 1: return 1; case Integer.MIN_VALUE + 2: return 2; default: return 9; } }
    static int holes(int n) { switch (n) { case -5: return 1; case -3: return 2; case 0: return 3; case 4: return 4; case 5: return 5; } return 0; }
    static int only(int n) { switch (n) { case 42: return 1; } return 0; }
    static int nothing(int n) { switch (n) { default: n++; } return n; }

    static int nested(int a, int b) {
        int r = 0;
        switch (a) {
            case 1: switch (b) { case 1: r = 11; break; case 2: r = 12; default: r += 100; } break;
            case 2: switch (b) { case 100000: r = 21; break; case -100000: r = 22; } r++;
            default: r += 1000;
        }
        return r;
    }

    static int chars(String s) {
        int words = 0, other = 0; boolean inside = false;
        for (int i = 0; i < s.length(); i++)
            switch (s.charAt(i)) {
                case ' ': case '\t': case '\n': inside = false; break;
                case '\0': return -1;
                case '\uffff': other++; break;
                default: if (!inside) { words++; inside = true; }
            }
        return words * 10 + other;
    }

    static int bytes(byte b) { switch (b) { case -128: return 1; case 127: return 2; case 0: return 3; default: return 0; } }

    public static void main(String[] args) {
        int[] keys = {Integer.MIN_VALUE, Integer.MIN_VALUE + 2, Integer.MIN_VALUE + 3, -6, -5, -4, -3, 0, 3, 4, 5, 6, 42, Integer.MAX_VALUE};
        for (int i = 0; i < keys.length; i++) System.out.println(low(keys[i]) + " " + holes(keys[i]) + " " + only(keys[i]) + " " + nothing(keys[i]));
        for (int a = 0; a < 3; a++) for (int b = 1; b < 4; b++) System.out.println(nested(a, b) + " " + nested(a, b * 100000) + " " + nested(a, -b * 100000));
        System.out.println(chars("one two\tthree\uffff \n four") + " " + chars("a\0b") + " " + chars(""));
        for (int i = -130; i < 131; i += 13) System.out.println(bytes((byte) i));
    }
}
