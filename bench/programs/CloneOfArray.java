// MissingMethod: clone isn't built in
class CloneOfArray { public static void main(String[] args) { int[] a = {1}; System.out.println(a.clone().length); } }
