// links
class NestedTries {
    static int g(int[] a, int i) {
        int s = 0;
        for (int k = 0; k < 3; k++) {
            try { try { s += a[i + k]; } catch (NullPointerException e) { s += 1000; break; } finally { s += 1; if (s > 50) continue; } s *= 2; }
            catch (ArrayIndexOutOfBoundsException e) { try { s += 10 / (k - 1); } catch (ArithmeticException z) { s -= 7; } }
            finally { try { s += 3; } finally { s += 5; } }
        }
        return s;
    }
    public static void main(String[] args) { System.out.println(g(new int[]{1, 2}, 0) + g(new int[]{}, 1) + g(null, 0)); }
}
