// Unsupported: invokedynamic
class Lambdas { public static void main(String[] args) { Runnable r = () -> System.out.println(args.length); r.run(); } }
