/** A thread that joins itself waits for ever, so the program is stalled. */
class JoinsItself {
    public static void main(String[] args) throws InterruptedException {
        System.out.println("main joins itself");
        Thread.currentThread().join();
        System.out.println("not reached");
    }
}
