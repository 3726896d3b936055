// Unsupported: double in a descriptor
class Floats { static double half(int n) { return n / 2.0; } public static void main(String[] args) { System.out.println((int) half(5)); } }
