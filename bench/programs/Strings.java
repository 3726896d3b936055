// links
class Strings {
    public static void main(String[] args) {
        String s = "a" + args.length + 'c' + 5L + true + null + new int[0].length;
        s += s.length(); s += s.charAt(0); s = s.concat("!");
        System.out.println(s); System.out.println(s.isEmpty()); System.out.println(s.equals("x") || s.hashCode() == 0);
        System.out.print(String.valueOf(7)); System.out.print(String.valueOf('c')); System.out.println(String.valueOf(args.length == 0));
        System.out.println((Object) s); System.out.println();
    }
}
