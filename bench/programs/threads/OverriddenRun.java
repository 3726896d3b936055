// links
class OverriddenRun {
    static String log = "";

    static final class Task implements Runnable {
        private final String text;
        Task(String text) { this.text = text; }
        public void run() { log += text + (Thread.currentThread().getName().equals("main") ? " in main, " : ", "); }
    }

    static class Twice extends Thread {
        Twice(Runnable target) { super(target); }
        @Override public void run() { super.run(); super.run(); log += "twice, "; }
    }

    static final class Four extends Twice {
        private int starts;
        Four(Runnable target) { super(target); }
        @Override public void run() { super.run(); super.run(); if (Thread.currentThread() == this) log += "four, "; }
        @Override public void start() { starts++; super.start(); }
    }

    static void both(Thread t) throws InterruptedException {
        log = "";
        t.run();
        System.out.println(log + t.getState());
        log = "";
        t.start();
        t.join();
        System.out.println(log + t.getState());
    }

    public static void main(String[] args) throws InterruptedException {
        both(new Thread());
        both(new Thread(new Task("task")));
        both(new Twice(null));
        both(new Twice(new Task("task")));
        Four four = new Four(new Twice(new Task("inner")));
        both(four);
        System.out.println(four.starts);
    }
}
