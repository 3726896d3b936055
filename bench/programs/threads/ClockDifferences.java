// links

/** The clock never goes back, and the milliseconds go on with the nanoseconds. */
class ClockDifferences {
    public static void main(String[] args) throws InterruptedException {
        long nanos = System.nanoTime();
        long millis = System.currentTimeMillis();
        int falls = 0;
        for (int i = 0; i < 2000; i++) {
            long now = System.nanoTime();
            if (now - nanos < 0) falls++;
            nanos = now;
            if (i % 100 == 0) Thread.sleep(1);
        }
        System.out.println(falls + " " + (System.currentTimeMillis() - millis >= 19));
    }
}
