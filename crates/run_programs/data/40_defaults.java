// Fields and elements begin as 0, false or null; arrays of arrays hold null until they are filled.
class Main {
    int number;
    boolean truth;
    String text;
    Main other;
    int[] numbers;

    void tell() {
        System.out.println(number + " " + truth + " " + text + " " + (other == null) + " " + (numbers == null));
    }

    static int sum(int[][] table) {
        int sum = 0;
        for (int i = 0; i < table.length; i++) {
            for (int j = 0; table[i] != null && j < table[i].length; j++) {
                sum += table[i][j];
            }
        }
        return sum;
    }

    static void elements() {
        System.out.println(new boolean[2].length);
        boolean[] truths = new boolean[2];
        String[] texts = new String[1];
        Main[] others = new Main[1];
        System.out.println(truths[1] + " " + texts[0] + " " + (others[0] == null));
    }

    public static void main(String[] args) {
        new Main().tell();
        elements();
        int[][] table = new int[3][];
        table[0] = new int[2];
        table[2] = new int[1];
        table[0][1] = 40;
        table[2][0] += 2;
        System.out.println(sum(table));
        System.out.println(table[1] == null);
        table[1][0] = 5;
    }
}
