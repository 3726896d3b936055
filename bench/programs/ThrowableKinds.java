// links
class ThrowableKinds {
    static Throwable make(int n, String m) {
        switch (n) {
            case 0: return new Throwable(m);
            case 1: return new Exception(m);
            case 2: return new Error(m);
            case 3: return new RuntimeException(m);
            case 4: return new InterruptedException(m);
            case 5: return new ArithmeticException(m);
            case 6: return new ArrayStoreException(m);
            case 7: return new ClassCastException(m);
            case 8: return new IllegalArgumentException(m);
            case 9: return new IllegalMonitorStateException(m);
            case 10: return new IllegalStateException(m);
            case 11: return new IndexOutOfBoundsException(m);
            case 12: return new NegativeArraySizeException(m);
            case 13: return new NullPointerException(m);
            case 14: return new UnsupportedOperationException(m);
            case 15: return new IllegalThreadStateException(m);
            case 16: return new ArrayIndexOutOfBoundsException(m);
            case 17: return new StringIndexOutOfBoundsException(m);
            case 18: return new LinkageError(m);
            case 19: return new IncompatibleClassChangeError(m);
            case 20: return new VerifyError(m);
            case 21: return new NoClassDefFoundError(m);
            case 22: return new ExceptionInInitializerError(m);
            case 23: return new AbstractMethodError(m);
            case 24: return new OutOfMemoryError(m);
            default: return new StackOverflowError(m);
        }
    }

    static Throwable plain(int n) {
        switch (n) {
            case 0: return new Throwable();
            case 1: return new Exception();
            case 2: return new Error();
            case 3: return new RuntimeException();
            case 4: return new InterruptedException();
            case 5: return new ArithmeticException();
            case 6: return new ArrayStoreException();
            case 7: return new ClassCastException();
            case 8: return new IllegalArgumentException();
            case 9: return new IllegalMonitorStateException();
            case 10: return new IllegalStateException();
            case 11: return new IndexOutOfBoundsException();
            case 12: return new NegativeArraySizeException();
            case 13: return new NullPointerException();
            case 14: return new UnsupportedOperationException();
            case 15: return new IllegalThreadStateException();
            case 16: return new ArrayIndexOutOfBoundsException();
            case 17: return new StringIndexOutOfBoundsException();
            case 18: return new LinkageError();
            case 19: return new IncompatibleClassChangeError();
            case 20: return new VerifyError();
            case 21: return new NoClassDefFoundError();
            case 22: return new ExceptionInInitializerError();
            case 23: return new AbstractMethodError();
            case 24: return new OutOfMemoryError();
            default: return new StackOverflowError();
        }
    }

    static String kind(int n) {
        try { throw make(n, "m" + n); }
        catch (IllegalThreadStateException e) { return "thread state " + e.getMessage(); }
        catch (IllegalArgumentException e) { return "argument " + e.getMessage(); }
        catch (IndexOutOfBoundsException e) { return "index " + e.getMessage(); }
        catch (ArithmeticException | ArrayStoreException | ClassCastException e) { return "operation " + e.getMessage(); }
        catch (RuntimeException e) { return "runtime " + e.getMessage(); }
        catch (Exception e) { return "checked " + e.getMessage(); }
        catch (AbstractMethodError e) { return "abstract " + e.getMessage(); }
        catch (LinkageError e) { return "linkage " + e.getMessage(); }
        catch (StackOverflowError | OutOfMemoryError e) { return "machine " + e.getMessage(); }
        catch (Error e) { return "error " + e.getMessage(); }
        catch (Throwable e) { return "other " + e.getMessage(); }
    }

    static int mask(Object o) {
        return (o instanceof Throwable ? 1 : 0) + (o instanceof Exception ? 2 : 0) + (o instanceof RuntimeException ? 4 : 0)
            + (o instanceof Error ? 8 : 0) + (o instanceof IndexOutOfBoundsException ? 16 : 0) + (o instanceof VirtualMachineError ? 32 : 0);
    }

    public static void main(String[] args) {
        for (int n = 0; n < 26; n++) System.out.println(kind(n) + " " + mask(make(n, null)) + " " + make(n, null).getMessage());
        for (int n = 0; n < 26; n++) System.out.println(mask(plain(n)) + " " + plain(n).getMessage());
    }
}
