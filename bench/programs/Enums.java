// MissingMethod: Enum has no constructor, so no program declares an enum
class Enums { enum Color { RED, GREEN } public static void main(String[] args) { System.out.println(Color.RED.ordinal()); } }
