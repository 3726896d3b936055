// links
class MachineExceptions {
    int field; long wide; static Object[] objects;

    static int raise(int kind, MachineExceptions m, int[] a, Object o, int z) {
        switch (kind) {
            case 0: return 1 / z;
            case 1: return 1 % z;
            case 2: return (int) (1L / z);
            case 3: return (int) (1L % z);
            case 4: return m.field;
            case 5: m.wide = 1; return 0;
            case 6: return m.raiseNone();
            case 7: return a.length;
            case 8: return a[0];
            case 9: a[0] = 1; return 0;
            case 10: return new int[3][2][3][0].length;
            case 11: return new int[1][1][2][0].length;
            case 12: return ((String) o).length();
            case 13: return ((int[]) o)[0];
            case 14: objects[0] = o; return objects.length;
            case 15: objects[2] = "past the end"; return 0;
            case 16: return new int[z - 1].length;
            case 17: return new Object[z - 2].length;
            case 18: return new long[2][z - 3].length;
            case 19: return "four".charAt(4);
            case 20: return "four".charAt(-1);
            case 21: throw new IllegalArgumentException();
            case 22: throw null;
            case 23: return "text".concat(null).length();
            default: return kind;
        }
    }

    private int raiseNone() { return 0; }

    static String name(int kind) {
        try {
            return "value " + raise(kind, null, null, new Object(), 0);
        } catch (ArithmeticException e) { return "arithmetic";
        } catch (NullPointerException e) { return "null";
        } catch (StringIndexOutOfBoundsException e) { return "text index";
        } catch (ArrayIndexOutOfBoundsException e) { return "array index";
        } catch (IndexOutOfBoundsException e) { return "index";
        } catch (ClassCastException e) { return "cast";
        } catch (ArrayStoreException e) { return "store";
        } catch (NegativeArraySizeException e) { return "size";
        } catch (RuntimeException e) { return "other"; }
    }

    public static void main(String[] args) {
        objects = new String[2];
        for (int kind = 0; kind < 26; kind++) System.out.println(kind + ": " + name(kind));
        objects = null;
        System.out.println(name(14) + ", " + name(15));
        int[] counts = new int[2];
        try { counts[counts.length] = raise(0, null, null, null, 0); } catch (ArithmeticException e) { System.out.println("value before index"); }
        try { nothing()[1 / counts[0]] = 1; } catch (ArithmeticException e) { System.out.println("index before null"); }
        try { nothing()[-1] = 1; } catch (NullPointerException e) { System.out.println("null before range"); }
    }

    static int[] nothing() { return null; }
}
