// links from 11
class PrivateMembers {
    interface Shape {
        private int twice(int n) { return 2 * n; }
        private static int half(int n) { return n / 2; }
        default int area() { return half(twice(width()) * height()); }
        int width();
        int height();
    }

    static class Box implements Shape {
        private int w, h;
        private static int boxes;
        private Box(int w, int h) { this.w = w; this.h = h; boxes++; }
        public int width() { return w; }
        public int height() { return h; }
        private int secret() { return w * 100 + h; }
    }

    static class Tall extends Box {
        private Tall(int h) { super(1, h); }
        private int secret() { return -1; }
    }

    private int hidden = 3;
    private int secret(Box b) { return b.secret() + hidden; }

    class Peek { private int at() { var p = PrivateMembers.this; p.hidden++; return p.secret(new Box(2, 2)); } }

    public static void main(String[] args) {
        var boxes = new Box[]{new Box(3, 4), new Tall(5)};
        for (var b : boxes) System.out.println(b.area() + " " + b.secret());
        var peek = new PrivateMembers().new Peek();
        System.out.println(peek.at() + " " + peek.at() + " " + Box.boxes + " " + ((Tall) boxes[1]).secret());
    }
}
