// links
class Builders {
    public static void main(String[] args) {
        StringBuilder b = new StringBuilder();
        for (int i = 0; i < 4; i++) b.append(i).append(' ').append(i * 10L).append(i > 2).append("x").append((Object) b);
        System.out.println(b.length()); System.out.println(b.toString());
    }
}
