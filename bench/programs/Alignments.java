// links
class Alignments {
    static int least(int a, int b, int c) { return a < b ? a < c ? a : c : b < c ? b : c; }

    static int distance(String a, String b) {
        int[] last = new int[b.length() + 1];
        for (int j = 0; j <= b.length(); j++) last[j] = j;
        for (int i = 1; i <= a.length(); i++) {
            int[] row = new int[b.length() + 1]; row[0] = i;
            for (int j = 1; j <= b.length(); j++) row[j] = least(row[j - 1] + 1, last[j] + 1, last[j - 1] + (a.charAt(i - 1) == b.charAt(j - 1) ? 0 : 1));
            last = row;
        }
        return last[b.length()];
    }

    static String common(String a, String b) {
        int[][] n = new int[a.length() + 1][b.length() + 1];
        for (int i = a.length() - 1; i >= 0; i--) for (int j = b.length() - 1; j >= 0; j--) n[i][j] = a.charAt(i) == b.charAt(j) ? 1 + n[i + 1][j + 1] : n[i + 1][j] > n[i][j + 1] ? n[i + 1][j] : n[i][j + 1];
        StringBuilder s = new StringBuilder();
        for (int i = 0, j = 0; i < a.length() && j < b.length(); ) if (a.charAt(i) == b.charAt(j)) { s.append(a.charAt(i)); i++; j++; } else if (n[i + 1][j] >= n[i][j + 1]) i++; else j++;
        return s.toString();
    }

    static int find(String text, String word) {
        int[] back = new int[word.length() + 1]; back[0] = -1;
        for (int i = 0, k = -1; i < word.length(); ) { while (k >= 0 && word.charAt(i) != word.charAt(k)) k = back[k]; back[++i] = ++k; }
        for (int i = 0, k = 0; i < text.length(); ) { while (k >= 0 && text.charAt(i) != word.charAt(k)) k = back[k]; i++; if (++k == word.length()) return i - k; }
        return -1;
    }

    static long knapsack(int[] weights, long[] values, int room) {
        long[] best = new long[room + 1];
        for (int i = 0; i < weights.length; i++) for (int w = room; w >= weights[i]; w--) if (best[w - weights[i]] + values[i] > best[w]) best[w] = best[w - weights[i]] + values[i];
        return best[room];
    }

    static int[] coins(int[] kinds, int sum) { int[] ways = new int[sum + 1]; ways[0] = 1; for (int k : kinds) for (int s = k; s <= sum; s++) ways[s] += ways[s - k]; return ways; }

    public static void main(String[] args) {
        System.out.println(distance("kitten", "sitting") + " " + distance("", "abc") + " " + distance("same", "same"));
        System.out.println(common("AGGTAB", "GXTXAYB") + " " + common("programming", "gaming") + " [" + common("abc", "xyz") + "]");
        System.out.println(find("ababcabcabababd", "ababd") + " " + find("aaaa", "b") + " " + find("aaab", "aab"));
        System.out.println(knapsack(new int[]{12, 2, 1, 4, 1}, new long[]{4000000000L, 2, 1, 10, 2}, 15) + " " + knapsack(new int[]{5}, new long[]{9}, 4));
        System.out.println(coins(new int[]{1, 5, 10, 25, 50}, 100)[100] + " " + coins(new int[]{2}, 7)[7]);
    }
}
