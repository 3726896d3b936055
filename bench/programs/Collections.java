// MissingClass: java.util.ArrayList isn't built in
class Collections { public static void main(String[] args) { java.util.List<String> l = new java.util.ArrayList<String>(); l.add("x"); System.out.println(l.size()); } }
