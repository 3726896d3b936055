// links
class Fields {
    static int count; static final int SIZE = 5; static final long BIG = 1L << 33; static final String NAME = "n"; static Object shared;
    int x = 3; long y; boolean flag; byte small; short mid; char letter = 'c'; int[] cells = {1, 2}; Fields next;
    public static void main(String[] args) {
        Fields f = new Fields(); f.next = new Fields(); f.next.next = f; shared = f;
        f.x += 2; f.next.y++; f.flag = !f.flag; f.small--; f.mid += 300; f.letter++; count += f.cells[1]++; Fields.count <<= 1;
        System.out.println(f.x + f.next.y + f.small + f.mid + f.letter + count + SIZE + BIG + NAME.length() + (shared == f ? 1 : 0));
    }
}
