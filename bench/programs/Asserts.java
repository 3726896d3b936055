// MissingClass: an assert asks java.lang.Class, which isn't built in
class Asserts { public static void main(String[] args) { assert args.length == 0; System.out.println(1); } }
