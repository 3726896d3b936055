// links
class CastsAndTests {
    interface Shape {} static class Box implements Shape {} static class Cube extends Box {}
    static String of(Object o) {
        if (o instanceof Cube) return "cube"; if (o instanceof Shape) return "shape"; if (o instanceof int[]) return "ints"; if (o instanceof Runnable[][]) return "runs";
        return o == null ? "null" : o.toString();
    }
    public static void main(String[] args) {
        Object[] all = {new Box(), new Cube(), new int[1], new Thread[1][1], "s", null};
        for (Object o : all) System.out.println(of(o));
        try { Cube c = (Cube) all[0]; System.out.println(c == all[0]); } catch (ClassCastException e) { System.out.println("cast"); }
        System.out.println(((int[]) all[2]).length);
    }
}
