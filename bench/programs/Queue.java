// links
class Queue<T> {
    private final Object[] cells = new Object[4]; private int head, tail;
    synchronized void put(T x) throws InterruptedException { while (tail - head == cells.length) wait(); cells[tail++ % cells.length] = x; notifyAll(); }
    @SuppressWarnings("unchecked") synchronized T take() throws InterruptedException { while (head == tail) wait(); T x = (T) cells[head % cells.length]; cells[head++ % cells.length] = null; notifyAll(); return x; }
    public static void main(String[] args) throws InterruptedException {
        final Queue<String> q = new Queue<String>();
        Thread t = new Thread(new Runnable() { public void run() { try { for (int i = 0; i < 9; i++) q.put("m" + i); } catch (InterruptedException e) { throw new IllegalStateException(e.getMessage()); } } });
        t.start(); for (int i = 0; i < 9; i++) System.out.println(q.take()); t.join();
    }
}
