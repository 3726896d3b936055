// links
class TextTable {
    private final String[] heads; private final String[][] rows; private int size;
    TextTable(String[] heads, int most) { this.heads = heads; rows = new String[most][]; }
    TextTable row(String... cells) { if (cells.length != heads.length) throw new IllegalArgumentException(cells.length + " cells"); rows[size++] = cells; return this; }

    static String pad(String s, int width, boolean right) { StringBuilder b = new StringBuilder(); if (!right) b.append(s); for (int i = s.length(); i < width; i++) b.append(' '); return (right ? b.append(s) : b).toString(); }
    static boolean isNumber(String s) { for (int i = 0; i < s.length(); i++) if ((s.charAt(i) < '0' || s.charAt(i) > '9') && s.charAt(i) != '-' && s.charAt(i) != ',') return false; return !s.isEmpty(); }

    static String grouped(long n) {
        if (n < 0) return "-" + grouped(-n);
        if (n < 1000) return "" + n;
        String last = "" + n % 1000; while (last.length() < 3) last = "0" + last;
        return grouped(n / 1000) + "," + last;
    }

    @Override public String toString() {
        int[] widths = new int[heads.length];
        for (int c = 0; c < heads.length; c++) { widths[c] = heads[c].length(); for (int r = 0; r < size; r++) if (rows[r][c].length() > widths[c]) widths[c] = rows[r][c].length(); }
        StringBuilder b = new StringBuilder();
        for (int r = -1; r < size; r++) {
            for (int c = 0; c < heads.length; c++) { String s = r < 0 ? heads[c] : rows[r][c]; b.append(c == 0 ? "| " : " | ").append(pad(s, widths[c], isNumber(s))); }
            b.append(" |\n");
            if (r < 0) { for (int c = 0; c < heads.length; c++) { b.append("|-"); for (int i = 0; i < widths[c]; i++) b.append('-'); b.append('-'); } b.append("|\n"); }
        }
        return b.append(size).append(' ').append(size == 1).append('\n').toString();
    }

    public static void main(String[] args) {
        TextTable t = new TextTable(new String[]{"n", "n squared", "is even"}, 12);
        for (long n = 1; n < 4000000000L; n *= -37) t.row("" + n, grouped(n % 3000000 * (n % 3000000)), n % 2 == 0 ? "yes" : n > 0 ? "no" : "not");
        System.out.print(t);
        try { t.row("one"); } catch (IllegalArgumentException e) { System.out.println(e.getMessage()); }
        System.out.println(pad("x", 3, true) + "|" + pad("x", 3, false) + "|" + pad("long", 2, true) + "|" + grouped(1000) + " " + grouped(-1234567890123L));
    }
}
