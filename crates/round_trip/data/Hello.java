// Hello.class: javac --release 8 -g Hello.java
// Hello17.class: the class of javac --release 17 -g:none Hello.java
public class Hello {
    public static void main(String[] args) {
        long sum = 0;
        for (int i = 0; i < args.length; i++) {
            sum += args[i].length();
        }
        System.out.println("Hello, " + sum);
    }
}
