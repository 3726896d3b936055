// links
class Accounts {
    static class MoneyException extends Exception { final long amount; MoneyException(String m, long amount) { super(m); this.amount = amount; } }
    static class NoFunds extends MoneyException { NoFunds(Account a, long amount) { super(a + " lacks", amount - a.balance); } }
    static class Closed extends MoneyException { Closed(Account a) { super(a + " is closed", 0); } }

    static abstract class Account {
        private static int last = 100;
        protected long balance; private boolean open = true; final int number = ++last;
        abstract long fee(long amount);
        void deposit(long amount) throws Closed { if (!open) throw new Closed(this); balance += amount; }
        void withdraw(long amount) throws MoneyException { if (!open) throw new Closed(this); long all = amount + fee(amount); if (all > balance) throw new NoFunds(this, all); balance -= all; }
        void close() { open = false; }
        @Override public String toString() { return "account " + number; }
    }

    static class Giro extends Account { long fee(long amount) { return 1; } }
    static class Savings extends Account { private int left = 2; long fee(long amount) { return amount / 100; } @Override void withdraw(long amount) throws MoneyException { if (left-- <= 0) throw new MoneyException("too often", amount); super.withdraw(amount); } }

    static int done, undone;
    static boolean transfer(Account from, Account to, long amount) {
        boolean ok = false; long before = from.balance;
        try { from.withdraw(amount); to.deposit(amount); ok = true; return true; }
        catch (NoFunds e) { System.out.println(e.getMessage() + " " + e.amount); return false; }
        catch (Closed e) { System.out.println(e.getMessage()); return false; }
        catch (MoneyException e) { System.out.println(e.getMessage() + ": " + e.amount); return false; }
        finally { if (ok) done++; else { from.balance = before; undone++; } }
    }

    public static void main(String[] args) throws MoneyException {
        Account a = new Giro(), b = new Savings();
        a.deposit(1000); b.deposit(50);
        System.out.println(transfer(a, b, 500) + " " + transfer(a, b, 500) + " " + transfer(b, a, 100) + " " + transfer(b, a, 400) + " " + transfer(b, a, 1));
        b.close();
        System.out.println(transfer(a, b, 5) + " " + a.balance + " " + b.balance + " " + done + " " + undone);
        b.withdraw(1);
    }
}
