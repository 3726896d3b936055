// links
class Loops {
    public static void main(String[] args) {
        int count = 0;
        outer:
        for (int i = 0; i < 20; i++) {
            for (int j = i; ; j--) {
                if (j < 0) continue outer;
                if (i * j > 100) break outer;
                count += j % 2 == 0 ? 1 : 2;
            }
        }
        System.out.println(count);
    }
}
