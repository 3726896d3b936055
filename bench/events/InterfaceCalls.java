/** Calls of methods of interfaces: implemented in a class, inherited by it, and with a body in the interface. */
public class InterfaceCalls {
    interface Step {
        int next(int n);

        default int twice(int n) {
            return n + 2;
        }
    }

    interface Other extends Step {
    }

    static class A implements Step {
        public int next(int n) {
            return n + 1;
        }
    }

    static class B extends A implements Other {
    }

    static class C extends B {
        public int next(int n) {
            return n + 3;
        }
    }

    static class D extends C {
    }

    public static void main(String[] args) {
        Step[] steps = {new A(), new B(), new C(), new D()};
        int sum = 0;
        for (int k = 0; k < 4; k++) {
            Step s = steps[k];
            for (int i = 0; i < 250000; i++) {
                sum = s.twice(s.next(sum));
            }
        }
        System.out.println(sum);
    }
}
