// links
class InterfaceFields {
    interface Limits { int[] SIZES = {1, 2, 3}; long BIG = SIZES.length * 1000L; Object LOCK = new Object(); }
    static class User implements Limits { int first() { return SIZES[0]; } }
    public static void main(String[] args) { System.out.println(new User().first() + Limits.BIG + User.SIZES[2]); }
}
