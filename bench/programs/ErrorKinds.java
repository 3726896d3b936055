// links
class ErrorKinds {
    static void raise(int k) {
        switch (k) {
            case 0: throw new IllegalArgumentException("a"); case 1: throw new UnsupportedOperationException(); case 2: throw new NegativeArraySizeException("n");
            case 3: throw new IndexOutOfBoundsException(); case 4: throw new NullPointerException(); case 5: throw new StackOverflowError(); case 6: throw new OutOfMemoryError();
            case 7: throw new IllegalMonitorStateException(); case 8: throw new ArithmeticException("x"); default: throw new ClassCastException();
        }
    }
    public static void main(String[] args) { for (int i = 0; i < 10; i++) try { raise(i); } catch (RuntimeException | Error e) { System.out.println(e.toString() + e.getMessage()); } }
}
