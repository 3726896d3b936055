// links
class Permutations {
    static int count; static String last = "";
    static void swap(char[] a, int i, int j) { char t = a[i]; a[i] = a[j]; a[j] = t; }
    static String text(char[] a) { StringBuilder b = new StringBuilder(); for (char c : a) b.append(c); return b.toString(); }

    static void all(char[] a, int from) { if (from == a.length) { count++; last = text(a); return; } for (int i = from; i < a.length; i++) { swap(a, from, i); all(a, from + 1); swap(a, from, i); } }

    static boolean next(char[] a) {
        int i = a.length - 2; while (i >= 0 && a[i] >= a[i + 1]) i--;
        if (i < 0) return false;
        int j = a.length - 1; while (a[j] <= a[i]) j--;
        swap(a, i, j);
        for (int l = i + 1, r = a.length - 1; l < r; l++, r--) swap(a, l, r);
        return true;
    }

    static void choose(String from, int n, String chosen) { if (n == 0) { System.out.print(chosen + " "); return; } String rest = from; while (rest.length() >= n) { String tail = ""; for (int i = 1; i < rest.length(); i++) tail += rest.charAt(i); choose(tail, n - 1, chosen + rest.charAt(0)); rest = tail; } }
    static int moves;
    static void hanoi(int n, int[][] pegs, int[] sizes, int from, int to) { if (n == 0) return; int by = 3 - from - to; hanoi(n - 1, pegs, sizes, from, by); pegs[to][sizes[to]++] = pegs[from][--sizes[from]]; moves++; hanoi(n - 1, pegs, sizes, by, to); }
    static int josephus(int n, int k) { boolean[] out = new boolean[n]; int at = -1; for (int left = n; left > 1; left--) { for (int s = 0; s < k; ) { at = (at + 1) % n; if (!out[at]) s++; } out[at] = true; } for (int i = 0; ; i++) if (!out[i]) return i; }
    static int collatz(long n) { int s = 0; for (; n != 1; s++) n = (n & 1) == 0 ? n / 2 : 3 * n + 1; return s; }

    public static void main(String[] args) {
        all(new char[]{'a', 'b', 'c', 'd', 'e', 'f'}, 0); System.out.println(count + " " + last);
        char[] a = {'a', 'a', 'b', 'c'}; int n = 0; do { n++; System.out.print(text(a) + " "); } while (next(a)); System.out.println(n);
        choose("abcde", 3, ""); System.out.println();
        int[][] pegs = new int[3][7]; int[] sizes = {7, 0, 0}; for (int i = 0; i < 7; i++) pegs[0][i] = 7 - i; hanoi(7, pegs, sizes, 0, 2); System.out.println(moves + " " + sizes[2] + " " + pegs[2][0] + pegs[2][6]);
        System.out.println(josephus(41, 3) + " " + josephus(1, 5) + " " + collatz(27) + " " + collatz(837799));
    }
}
