/** Threads are numbered as they are made, main first; a constructor that throws uses up no number and no name. */
class ThreadNumbers {
    static void show(Thread t) { System.out.println(t.threadId() + " '" + t.getName() + "'"); }

    public static void main(String[] args) {
        show(Thread.currentThread());
        show(new Thread());
        try { new Thread((String) null); } catch (NullPointerException e) { System.out.println("no name"); }
        try { Thread.ofVirtual().unstarted(null); } catch (NullPointerException e) { System.out.println("nothing to run"); }
        show(new Thread("named"));
        show(Thread.ofVirtual().unstarted(new Thread()));
        show(new Thread());
    }
}
