// links
class ExitInHandler {
    public static void main(String[] args) {
        int[] counts = new int[3];
        try {
            for (int i = 0; ; i++) counts[i] = i * i;
        } catch (ArrayIndexOutOfBoundsException e) {
            System.out.println(counts[0] + counts[1] + counts[2]);
            System.exit(counts[2]);
        } finally {
            System.out.println("no finally behind an exit");
        }
    }
}
