// links
class UncaughtStore {
    static void fill(Object[] array, Object with) {
        for (int i = 0; i < array.length; i++) array[i] = with;
        System.out.println(array.length);
    }

    public static void main(String[] args) {
        fill(new Object[3], "text");
        fill(new String[2], "text");
        fill(new String[2][], null);
        fill(new Object[0], new int[0]);
        fill(new String[1], new Object());
    }
}
