// links
class Statics {
    static int[] table = new int[10]; static int made;
    static { for (int i = 0; i < table.length; i++) table[i] = i * i; made = 1; }
    static class Other { static int value = Statics.table[3] + 1; static { value *= 2; } }
    public static void main(String[] args) { System.out.println(Other.value + made); }
}
