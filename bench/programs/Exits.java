// links
class Exits {
    static void leave(int status) {
        try { System.out.println("leaving"); System.exit(status); } finally { System.out.println("not reached"); }
    }

    public static void main(String[] args) {
        System.out.println(1);
        for (int i = 0; i < 5; i++) if (i == 3) leave(300);
        System.out.println("not reached either");
    }
}
