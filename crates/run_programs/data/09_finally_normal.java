// Each way out of a try goes through a finally that ends normally, and goes on as it was.
class Main {
    static int leave(int way) {
        int turns = 0;
        while (turns < 2) {
            turns++;
            try {
                System.out.print("try ");
                if (way == 1) {
                    return turns;
                }
                if (way == 2) {
                    break;
                }
                if (way == 3) {
                    continue;
                }
                if (way == 4) {
                    throw new IllegalStateException("four");
                }
                System.out.print("on ");
            } finally {
                System.out.print("finally ");
                turns += 10;
            }
            System.out.print("behind ");
        }
        return -turns;
    }

    static void run(int way) {
        try {
            System.out.println(leave(way));
        } catch (IllegalStateException e) {
            System.out.println(e.getMessage());
        }
    }

    public static void main(String[] args) {
        run(0);
        run(1);
        run(2);
        run(3);
        run(4);
    }
}
