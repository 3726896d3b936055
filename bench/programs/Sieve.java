// links
class Sieve { public static void main(String[] args) { boolean[] no = new boolean[200]; int n = 0; for (int i = 2; i < 200; i++) { if (no[i]) continue; n++; for (int j = i * i; j < 200; j += i) no[j] = true; } System.out.println(n); } }
