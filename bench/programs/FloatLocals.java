// Unsupported: instructions of float
class FloatLocals { public static void main(String[] args) { float f = args.length; f += 1.5f; System.out.println((int) f); } }
