// links
class Inheritance {
    static abstract class Animal { String name; Animal(String n) { name = n; } abstract String sound(); public String toString() { return name + ":" + sound(); } }
    static class Dog extends Animal { Dog() { super("dog"); } String sound() { return "wuff"; } }
    static final class Puppy extends Dog { final String sound() { return super.sound() + "!"; } }
    public static void main(String[] args) { Animal[] all = {new Dog(), new Puppy()}; for (Animal a : all) System.out.println(a); }
}
