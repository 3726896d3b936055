// MissingClass: java.lang.Record, the superclass of a record, isn't built in; from 17
class Records { record Point(int x, int y) {} public static void main(String[] args) { System.out.println(new Point(1, 2).x()); } }
