// links
class InitializerOrder {
    static String trace = "main;";
    static int next = 1;
    static int take(String who) { trace += who + next + ";"; return next++; }
    static final int CONSTANT = 7;
    static { trace += "block;"; }

    public static void main(String[] args) {
        // the classes are met in the order in which their files stand
        int sum = InitializerOrderA.value + InitializerOrderB.value + InitializerOrderC.value * InitializerOrderC.scale;
        System.out.println(trace);
        System.out.println(sum + " " + InitializerOrderB.early + " " + InitializerOrderC.CONSTANT + " " + CONSTANT);
        new InitializerOrderC();
        System.out.println(trace);
    }
}

class InitializerOrderA {
    static int value = InitializerOrder.take("A");
    static int[] table = new int[4];
    static { for (int i = 0; i < table.length; i++) table[i] = InitializerOrder.take("a"); }
}

class InitializerOrderB extends InitializerOrderA {
    static int early = table[3];
    static int value = InitializerOrder.take("B") + later();
    static int late = 5;
    static int later() { return late * 100; }
}

class InitializerOrderC extends InitializerOrderB {
    static final int CONSTANT = 99;
    static int scale = 10;
    static int value = InitializerOrder.take("C");
    static { scale = scale + value; }
    int own = InitializerOrder.take("own");
    { own += InitializerOrder.take("instance"); }
    InitializerOrderC() { own += InitializerOrder.take("constructor"); InitializerOrder.trace += own; }
}
