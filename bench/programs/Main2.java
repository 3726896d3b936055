// links
public class Main2 { int twice(int x) { return Helper.add(x, x); } public static void main(String... args) { System.out.println(new Main2().twice(Helper.BASE)); } }
class Helper { static final int BASE = Integer2.value; static int add(int a, int b) { return a + b; } }
class Integer2 { static int value = 21; }
