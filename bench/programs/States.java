// links
class States {
    public static void main(String[] args) throws InterruptedException {
        Thread t = new Thread(new Runnable() { public void run() { try { Thread.sleep(10); } catch (InterruptedException e) { System.out.println(Thread.interrupted()); } } });
        System.out.println(t.getState() == Thread.State.NEW); t.start(); t.interrupt(); t.join();
        System.out.println(t.getState().name() + t.getState().ordinal() + t.getState());
    }
}
