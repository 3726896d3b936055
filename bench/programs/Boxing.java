// MissingClass: Integer isn't built in
class Boxing { public static void main(String[] args) { Integer i = 5; System.out.println(i + 1); } }
