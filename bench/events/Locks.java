/** Enters and leaves the monitor of an object that no other thread has. */
public class Locks {
    public static void main(String[] args) {
        Locks lock = new Locks();
        int turns = 0;
        for (int i = 0; i < 1000000; i++) {
            synchronized (lock) {
                turns++;
            }
        }
        System.out.println(turns);
    }
}
