/** Calls of methods that classes inherit and override, at two, four and eight classes below the one that declares them. */
public class VirtualCalls {
    static class A {
        int own(int n) {
            return n + 1;
        }

        int inherited(int n) {
            return n + 2;
        }
    }

    static class B extends A {
    }

    static class C extends B {
        int own(int n) {
            return n + 3;
        }
    }

    static class D extends C {
    }

    static class E extends D {
    }

    static class F extends E {
        int own(int n) {
            return n + 4;
        }
    }

    static class G extends F {
    }

    static class H extends G {
    }

    static class I extends H {
    }

    public static void main(String[] args) {
        A[] objects = {new A(), new C(), new E(), new I()};
        int sum = 0;
        for (int k = 0; k < 4; k++) {
            A o = objects[k];
            for (int i = 0; i < 250000; i++) {
                sum = o.inherited(o.own(sum));
            }
        }
        System.out.println(sum);
    }
}
