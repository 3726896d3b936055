// links from 21
class VirtualUncaught implements Runnable {
    private final RuntimeException thrown;

    VirtualUncaught(RuntimeException thrown) { this.thrown = thrown; }

    public void run() { throw thrown; }

    public static void main(String[] args) throws InterruptedException {
        Thread named = Thread.ofVirtual().name("named").start(new VirtualUncaught(new IllegalStateException("of a virtual thread")));
        named.join();
        System.out.println(named.getState());
        Thread.ofPlatform().name("platform").start(new VirtualUncaught(new ArithmeticException())).join();
        Thread renamed = Thread.ofVirtual().unstarted(new VirtualUncaught(null));
        renamed.setName("renamed");
        renamed.start();
        renamed.join();
        System.out.println(renamed.getName() + " " + renamed.isAlive());
    }
}
