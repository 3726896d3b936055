// links
class UncaughtCast {
    static class Animal { }
    static class Dog extends Animal { int legs = 4; }

    public static void main(String[] args) {
        Animal[] animals = {new Dog(), null, new Animal()};
        for (int i = 0; i < animals.length; i++) {
            Dog dog = (Dog) animals[i];
            System.out.println(dog == null ? 0 : dog.legs);
        }
    }
}
