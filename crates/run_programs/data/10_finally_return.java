// A return in a finally discards every earlier way out.
class Main {
    static int leave(int way) {
        int turns = 0;
        while (turns < 2) {
            turns++;
            try {
                if (way == 1) {
                    return turns;
                }
                if (way == 2) {
                    break;
                }
                if (way == 3) {
                    continue;
                }
                if (way == 4) {
                    throw new IllegalStateException();
                }
                System.out.print("normal ");
            } finally {
                System.out.print("finally ");
                return 100 + way;
            }
        }
        return turns;
    }

    static void nothing() {
        try {
            throw new RuntimeException();
        } finally {
            return;
        }
    }

    public static void main(String[] args) {
        System.out.println(leave(0));
        System.out.println(leave(1));
        System.out.println(leave(2));
        System.out.println(leave(3));
        System.out.println(leave(4));
        nothing();
        System.out.println("ok");
    }
}
