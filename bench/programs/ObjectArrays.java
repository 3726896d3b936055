// links
class ObjectArrays {
    public static void main(String[] args) {
        Object[] os = new String[2]; String[][] ss = {{"a"}, {}, null}; Object[][] grid = new Object[3][4];
        try { os[0] = new ObjectArrays(); } catch (ArrayStoreException e) { System.out.println("store"); }
        grid[1] = ss[0]; grid[2][3] = ss; Object o = grid;
        if (o instanceof Object[][]) System.out.println(((Object[][]) o)[1].length + ss.length);
    }
}
