// links from 21

/** A lock for readers and writers, written by hand: writers are alone, readers see whole pairs. */
class ReadersAndWriters {
    static final class Lock {
        private int readers;
        private boolean writes;

        synchronized void lockToRead() throws InterruptedException {
            while (writes) wait();
            readers++;
        }

        synchronized void unlockAfterRead() {
            readers--;
            if (readers == 0) notifyAll();
        }

        synchronized void lockToWrite() throws InterruptedException {
            while (writes || readers > 0) wait();
            writes = true;
        }

        synchronized void unlockAfterWrite() {
            writes = false;
            notifyAll();
        }
    }

    static final Lock lock = new Lock();
    static int left;
    static int right;
    static int torn;

    static synchronized void tear() { torn++; }

    static final class Writes implements Runnable {
        public void run() {
            try {
                for (int i = 0; i < 40; i++) {
                    lock.lockToWrite();
                    left++;
                    Thread.yield();
                    right++;
                    lock.unlockAfterWrite();
                }
            } catch (InterruptedException e) {
                System.out.println("interrupted");
            }
        }
    }

    static final class Reads implements Runnable {
        public void run() {
            try {
                for (int i = 0; i < 40; i++) {
                    lock.lockToRead();
                    int seen = left;
                    Thread.yield();
                    if (seen != right) tear();
                    lock.unlockAfterRead();
                }
            } catch (InterruptedException e) {
                System.out.println("interrupted");
            }
        }
    }

    public static void main(String[] args) throws InterruptedException {
        Thread[] threads = new Thread[9];
        for (int i = 0; i < threads.length; i++) {
            threads[i] = Thread.ofVirtual().start(i % 3 == 0 ? new Writes() : new Reads());
        }
        for (Thread t : threads) t.join();
        System.out.println(left + " " + right + " " + torn);
    }
}
