// An exception thrown in a finally takes the place of every earlier way out.
class Main {
    static int leave(int way) {
        int turns = 0;
        while (turns < 2) {
            turns++;
            try {
                if (way == 1) {
                    return turns;
                }
                if (way == 2) {
                    break;
                }
                if (way == 3) {
                    continue;
                }
                if (way == 4) {
                    throw new IllegalStateException("try");
                }
            } finally {
                throw new IllegalArgumentException("finally " + way + " " + turns);
            }
        }
        return turns;
    }

    public static void main(String[] args) {
        for (int way = 0; way < 5; way++) {
            try {
                System.out.println(leave(way));
            } catch (IllegalArgumentException e) {
                System.out.println(e.getMessage());
            }
        }
    }
}
