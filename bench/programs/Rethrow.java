// links
class Rethrow {
    static void deep(int n) throws Exception { if (n == 0) throw new Exception("deep"); try { deep(n - 1); } catch (RuntimeException e) { throw e; } finally { System.out.print(n); } }
    public static void main(String[] args) throws Exception {
        try { deep(3); } catch (Exception e) { Throwable t = e; System.out.println(t.getMessage()); if (args.length > 5) throw e; }
        throw new Error();
    }
}
