// A break or a continue in a finally discards every earlier way out, and the loop goes on or ends by it.
class Main {
    static int leave(int way, boolean ends) {
        int turns = 0;
        while (turns < 3) {
            turns++;
            try {
                if (way == 1) {
                    return 1000;
                }
                if (way == 2) {
                    break;
                }
                if (way == 3) {
                    continue;
                }
                if (way == 4) {
                    throw new IllegalStateException();
                }
                System.out.print("normal ");
            } finally {
                if (ends) {
                    break;
                }
                continue;
            }
        }
        return turns;
    }

    public static void main(String[] args) {
        for (int way = 0; way <= 4; way++) {
            System.out.println(leave(way, true) + " " + leave(way, false));
        }
    }
}
