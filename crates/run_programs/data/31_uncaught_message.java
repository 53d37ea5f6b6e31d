// An exception of the file's own class that nothing takes, with its message.
class Main {
    static void deep(int n) {
        if (n == 0) {
            throw new Trouble("deep", 7);
        }
        System.out.println(n);
        deep(n - 1);
    }

    public static void main(String[] args) {
        deep(2);
        System.out.println("not reached");
    }
}

class Trouble extends RuntimeException {
    int number;

    Trouble(String text, int number) {
        super(text + " " + number + true + null);
        this.number = number;
    }
}
