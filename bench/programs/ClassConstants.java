// Unsupported: ldc of a Class constant
class ClassConstants { public static void main(String[] args) { Object c = ClassConstants.class; System.out.println(c == null); } }
