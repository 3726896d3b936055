// links from 21

/** A pool of threads that take tasks from a queue until it is shut down. */
class ThreadPool {
    interface Task { void run(); }

    static final class Link {
        final Task task;
        Link next;
        Link(Task task) { this.task = task; }
    }

    static final class Pool implements Runnable {
        private Link first;
        private Link last;
        private boolean closed;
        private final Thread[] threads;

        Pool(int size) {
            threads = new Thread[size];
            for (int i = 0; i < size; i++) threads[i] = Thread.ofVirtual().start(this);
        }

        void submit(Task task) {
            synchronized (this) {
                Link link = new Link(task);
                if (last == null) first = link; else last.next = link;
                last = link;
                notify();
            }
        }

        private synchronized Task next() throws InterruptedException {
            while (first == null) {
                if (closed) return null;
                wait();
            }
            Task task = first.task;
            first = first.next;
            if (first == null) last = null;
            return task;
        }

        public void run() {
            try {
                for (Task task = next(); task != null; task = next()) task.run();
            } catch (InterruptedException e) {
                System.out.println("interrupted");
            }
        }

        void close() throws InterruptedException {
            synchronized (this) {
                closed = true;
                notifyAll();
            }
            for (Thread t : threads) t.join();
        }
    }

    static long sum;

    static synchronized void add(long n) { sum += n; }

    static final class Squares implements Task {
        private final int n;
        Squares(int n) { this.n = n; }
        public void run() { add((long) n * n); }
    }

    public static void main(String[] args) throws InterruptedException {
        Pool pool = new Pool(5);
        for (int i = 1; i <= 200; i++) pool.submit(new Squares(i));
        pool.close();
        System.out.println(sum);
    }
}
