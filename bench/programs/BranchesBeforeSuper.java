// links
class BranchesBeforeSuper {
    static class Base { int v; Base(int v) { this.v = v; } Base(Object o, Base other) { v = o == null ? other.v : 7; } }
    static class Left extends Base { Left(boolean b) { super(b ? new Base(1).v : b ? 2 : new Base(new Base(null, new Base(3)), null).v); } }
    static class Right extends Base { Right(int n) { super(n > 3 ? new Object() : null, n > 5 ? new Left(true) : new Base(n)); } }
    class In extends Base { In(boolean b) { super(b ? 5 : 6); } int outer() { return v + x; } }
    int x = 1;
    public static void main(String[] args) { System.out.println(new Left(false).v + new Right(4).v + new Right(1).v + new BranchesBeforeSuper().new In(true).outer()); }
}
