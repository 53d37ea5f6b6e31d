/** A bank's accounts: what may be withdrawn and what a month costs depends on the kind of account. */
class Accounts {
    public static void main(String[] args) {
        Account[] accounts = new Account[3];
        accounts[0] = new Account("Ada", 120);
        accounts[1] = new CheckingAccount("Ben", 50, 200);
        accounts[2] = new SavingsAccount("Cleo", 1000, 3);
        withdraw(accounts[0], 150);
        withdraw(accounts[1], 180);
        withdraw(accounts[1], 100);
        withdraw(accounts[2], 400);
        transfer(accounts[2], accounts[0], 250);
        transfer(accounts[0], accounts[1], 5000);

        for (int month = 1; month <= 2; month++) {
            int total = 0;
            for (int i = 0; i < accounts.length; i++) {
                accounts[i].endMonth();
                System.out.println(accounts[i].describe());
                total += accounts[i].balance();
            }
            System.out.println("month " + month + ": " + total + " in all");
        }
    }

    static void withdraw(Account account, int amount) {
        try {
            account.withdraw(amount);
            System.out.println(account.owner() + " takes " + amount);
        } catch (NotCovered e) {
            System.out.println("not paid: " + e.getMessage());
        }
    }

    static void transfer(Account from, Account to, int amount) {
        try {
            from.withdraw(amount);
            to.deposit(amount);
            System.out.println(from.owner() + " sends " + to.owner() + " " + amount);
        } catch (NotCovered e) {
            System.out.println("no transfer: " + e.getMessage());
        }
    }
}

class NotCovered extends Exception {
    NotCovered(String owner, int missing) {
        super(owner + " lacks " + missing);
    }
}

class Account {
    private String owner;
    private int balance;

    Account(String owner, int balance) {
        this.owner = owner;
        this.balance = balance;
    }

    String owner() {
        return owner;
    }

    int balance() {
        return balance;
    }

    int available() {
        return balance;
    }

    void deposit(int amount) {
        balance += amount;
    }

    void withdraw(int amount) throws NotCovered {
        if (amount > available()) {
            throw new NotCovered(owner, amount - available());
        }
        balance -= amount;
    }

    void endMonth() {
    }

    String describe() {
        return owner + ": " + balance;
    }
}

class CheckingAccount extends Account {
    private int credit;

    CheckingAccount(String owner, int balance, int credit) {
        super(owner, balance);
        this.credit = credit;
    }

    int available() {
        return super.available() + credit;
    }

    String describe() {
        return super.describe() + (balance() < 0 ? " (of " + -credit + " at most)" : "");
    }
}

class SavingsAccount extends Account {
    private int percent;

    SavingsAccount(String owner, int balance, int percent) {
        super(owner, balance);
        this.percent = percent;
    }

    void endMonth() {
        deposit(balance() * percent / 100);
    }
}
