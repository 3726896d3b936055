// links from 21
import java.util.concurrent.locks.LockSupport;

class ParkPingPong {
    static final int ROUNDS = 2000;
    static volatile int turn;
    static int sum;

    static final class Player implements Runnable {
        private final int number;
        Thread other;

        Player(int number) { this.number = number; }

        public void run() {
            for (int i = 0; i < ROUNDS; i++) {
                while (turn != number) LockSupport.park();
                sum = sum * 31 + number + i;
                turn = 1 - number;
                LockSupport.unpark(other);
            }
        }
    }

    static void play(Thread.Builder first, Thread.Builder second) throws InterruptedException {
        turn = 0;
        sum = 0;
        Player ping = new Player(0);
        Player pong = new Player(1);
        Thread a = first.unstarted(ping);
        Thread b = second.unstarted(pong);
        ping.other = b;
        pong.other = a;
        a.start();
        b.start();
        a.join();
        b.join();
        System.out.println(sum);
    }

    public static void main(String[] args) throws InterruptedException {
        play(Thread.ofVirtual(), Thread.ofVirtual());
        play(Thread.ofPlatform(), Thread.ofVirtual());
        play(Thread.ofPlatform(), Thread.ofPlatform());
    }
}
