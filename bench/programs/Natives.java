// Native: a native method of the program
class Natives { native int f(); public static void main(String[] args) { System.out.println(1); } }
