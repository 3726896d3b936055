package special;

/** Calls of `super.m()`, of which some select no method once K and L are compiled again, with a method m each. */
class Main {
    static String called(Caller a) {
        try {
            return "" + a.t();
        } catch (AbstractMethodError e) {
            return "AbstractMethodError";
        } catch (IncompatibleClassChangeError e) {
            return "IncompatibleClassChangeError";
        }
    }

    public static void main(String[] args) {
        System.out.println(called(new A()));
        System.out.println(called(new D()));
        System.out.println(called(new E()));
    }
}

interface I { default int m() { return 1; } }

interface K {}

interface L extends I {}

class B implements I, K {}

class C implements I {}

abstract class M extends C implements L {}

abstract class N extends C { public int m() { return 3; } }

interface Caller { int t(); }

/** Two bodies, neither of which is more specific. */
class A extends B implements Caller { public int t() { return super.m(); } }

/** The method is looked for in C, and selected from M on: the most specific one has no body. */
class D extends M implements Caller { public int t() { return super.m(); } }

/** The method is looked for in C, and selected from N on. */
class E extends N implements Caller { public int t() { return super.m(); } }
