/** Four virtual threads that add under one monitor. */
public class MonitorAdds extends Four {
    int sum;

    public void run() {
        for (int i = 0; i < 50_000; i++) add();
    }

    synchronized void add() { sum++; }

    public static void main(String[] args) throws InterruptedException {
        MonitorAdds adds = new MonitorAdds();
        run(adds);
        System.out.println(adds.sum);
    }
}
