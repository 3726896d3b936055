// links
class PingPong implements Runnable {
    static volatile int turn;
    private final int number, players;

    PingPong(int number, int players) { this.number = number; this.players = players; }

    public void run() {
        for (int round = 0; round < 3; round++) {
            while (turn % players != number) Thread.yield();
            System.out.println("round " + round + ": " + Thread.currentThread().getName());
            turn = turn + 1;
        }
    }

    public static void main(String[] args) throws InterruptedException {
        for (int players = 1; players <= 4; players++) {
            turn = 0;
            Thread[] threads = new Thread[players];
            for (int i = players - 1; i >= 0; i--) {
                threads[i] = new Thread(new PingPong(i, players), "player " + i);
                threads[i].start();
            }
            for (Thread t : threads) t.join();
        }
        System.out.println(turn);
    }
}
