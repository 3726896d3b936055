// links
class UncaughtThrowable {
    static void raise(Throwable t) throws Throwable { if (t != null) throw t; throw null; }

    public static void main(String[] args) throws Throwable {
        try { raise(null); } catch (NullPointerException e) { System.out.println("null thrown"); }
        try { raise(new Throwable("whole")); } catch (Exception e) { System.out.println("not this"); }
        finally { System.out.println("finally"); }
    }
}
