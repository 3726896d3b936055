// javac --release 8 -g:none -XDstringConcat=inline Tour.java
interface Shape {
    int area();
}

abstract class Figure implements Shape {
    static int made;

    final String name;

    Figure(String name) {
        this.name = name;
        made++;
    }

    @Override
    public String toString() {
        return name + " " + area();
    }
}

class Square extends Figure {
    private final int side;

    Square(int side) {
        super("square");
        this.side = side;
    }

    @Override
    public int area() {
        return side * side;
    }
}

class Rectangle extends Figure {
    private final int width;
    private final int height;

    Rectangle(int width, int height) {
        super("rectangle");
        this.width = width;
        this.height = height;
    }

    @Override
    public int area() {
        return width * height;
    }
}

/** What a program of one thread can do: each line that it prints is one thing. */
public class Tour {
    private static final int[] DIGITS = {3, 1, 4, 1, 5, 9, 2, 6};

    private static long sum;

    static {
        sum = 100L;
    }

    private static void sort(int[] numbers) {
        for (int i = 1; i < numbers.length; i++) {
            int number = numbers[i];
            int place = i - 1;
            while (place >= 0 && numbers[place] > number) {
                numbers[place + 1] = numbers[place];
                place--;
            }
            numbers[place + 1] = number;
        }
    }

    private static int fibonacci(int n) {
        return n < 2 ? n : fibonacci(n - 1) + fibonacci(n - 2);
    }

    private static int depth(int n) {
        return n == 0 ? 0 : 1 + depth(n - 1);
    }

    private static String caught(int what) {
        Object square = new Square(3);
        try {
            switch (what) {
                case 0:
                    return "" + 1 / (DIGITS.length - 8);
                case 1:
                    return (String) square;
                case 2:
                    return "" + DIGITS[8];
                case 3:
                    return "" + new int[DIGITS.length - 9].length;
                case 4:
                    return "" + depth(1000000);
                case 5:
                    Object none = null;
                    return none.toString();
                case 6:
                    Object[] texts = new String[1];
                    texts[0] = square;
                    return "stored";
                default:
                    throw new IllegalStateException();
            }
        } catch (ArithmeticException e) {
            return "division";
        } catch (ClassCastException e) {
            return "cast";
        } catch (IndexOutOfBoundsException e) {
            return "index";
        } catch (NegativeArraySizeException e) {
            return "size";
        } catch (StackOverflowError e) {
            return "stack";
        } catch (NullPointerException e) {
            return "null";
        } catch (ArrayStoreException e) {
            return "store";
        } catch (RuntimeException e) {
            return "state";
        } finally {
            sum++;
        }
    }

    public static void main(String[] args) {
        Figure[] figures = {new Square(3), new Rectangle(2, 5), new Square(4)};
        for (Figure figure : figures) {
            System.out.println(figure.toString());
            sum += figure.area();
        }
        System.out.println(Figure.made);
        System.out.println(sum);
        sort(DIGITS);
        StringBuilder sorted = new StringBuilder();
        for (int digit : DIGITS) {
            sorted.append(digit).append(',');
        }
        System.out.println(sorted.toString());
        System.out.println(fibonacci(15));
        System.out.println(depth(1000));
        for (int what = 0; what < 8; what++) {
            System.out.println(caught(what));
        }
        System.out.println(sum);
        int[][] table = new int[3][4];
        table[1][2] = 7;
        System.out.println(table[1][2] + table[2].length);
        System.out.println(1L << 40);
        System.out.println((int) (Long.MAX_VALUE / 3));
        System.out.println((char) ('a' + 2));
        System.out.println(figures[0] instanceof Shape);
        System.out.println("caf\u00e9".concat(" \ud83d\ude00").length());
        System.out.println("caf\u00e9 \ud83d\ude00");
        System.out.println(Long.MIN_VALUE % 10 + Integer.MIN_VALUE / -1);
        figures[2] = null;
        System.out.println(figures[2].name);
    }
}
