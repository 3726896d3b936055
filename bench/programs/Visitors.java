// links
class Visitors {
    interface Visitor { int num(int n); int add(Expr a, Expr b); } interface Expr { int accept(Visitor v); }
    static class Num implements Expr { int n; Num(int n) { this.n = n; } public int accept(Visitor v) { return v.num(n); } }
    static class Add implements Expr { Expr a, b; Add(Expr a, Expr b) { this.a = a; this.b = b; } public int accept(Visitor v) { return v.add(a, b); } }
    public static void main(String[] args) { System.out.println(new Add(new Num(2), new Add(new Num(3), new Num(4))).accept(new Visitor() { public int num(int n) { return n; } public int add(Expr a, Expr b) { return a.accept(this) + b.accept(this); } })); }
}
