// links
class ExitStatus {
    public static void main(String[] args) {
        System.out.println(1);
        System.exit(300);
        System.out.println(2);
    }
}
