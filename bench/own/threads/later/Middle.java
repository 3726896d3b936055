abstract class Middle extends Thread { public abstract void run(); }
