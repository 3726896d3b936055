// links
class UncaughtTextIndex {
    static char last(String s) { return s.charAt(s.length() - 1); }

    public static void main(String[] args) {
        System.out.println(last("text"));
        try { last(null); } catch (NullPointerException e) { System.out.println("no text"); }
        try { last(""); } catch (IllegalArgumentException e) { System.out.println("not this kind"); }
    }
}
