// links
class StringSwitch {
    static int of(String s) {
        switch (s) { case "Aa": return 1; case "BB": return 2; case "": return 3; default: return 4; }
    }
    public static void main(String[] args) { System.out.println(of("Aa") + of("BB") * 10 + of("") * 100 + of("x") * 1000); }
}
