/** The seats of a hall, whose rows are not equally long: arrays of arrays. */
class Seats {
    private String[][] rows;

    Seats(int[] lengths) {
        rows = new String[lengths.length][];
        for (int r = 0; r < lengths.length; r++) {
            rows[r] = new String[lengths[r]];
        }
    }

    /** Seats a group side by side in the first row that has room, or gives -1. */
    int seat(String name, int people) {
        for (int r = 0; r < rows.length; r++) {
            int at = gap(rows[r], people);
            if (at >= 0) {
                for (int i = at; i < at + people; i++) {
                    rows[r][i] = name;
                }
                return r;
            }
        }
        return -1;
    }

    private static int gap(String[] row, int people) {
        int free = 0;
        for (int i = 0; i < row.length; i++) {
            free = row[i] == null ? free + 1 : 0;
            if (free == people) {
                return i - people + 1;
            }
        }
        return -1;
    }

    int leave(String name) {
        int left = 0;
        for (int r = 0; r < rows.length; r++) {
            for (int i = 0; i < rows[r].length; i++) {
                if (rows[r][i] == null || !rows[r][i].equals(name)) {
                    continue;
                }
                rows[r][i] = null;
                left++;
            }
        }
        return left;
    }

    void show() {
        for (int r = 0; r < rows.length; r++) {
            String line = r + 1 + ":";
            for (int i = 0; i < rows[r].length; i++) {
                line += " " + (rows[r][i] == null ? "-" : rows[r][i]);
            }
            System.out.println(line);
        }
    }

    public static void main(String[] args) {
        int[] lengths = new int[4];
        for (int i = 0; i < lengths.length; i++) {
            lengths[i] = 3 + i % 2 * 2 + i;
        }
        Seats hall = new Seats(lengths);
        String[] names = new String[6];
        names[0] = "A";
        names[1] = "B";
        names[2] = "C";
        names[3] = "D";
        names[4] = "E";
        names[5] = "F";
        int[] sizes = new int[names.length];
        for (int i = 0; i < names.length; i++) {
            sizes[i] = 2 + i * 5 % 4;
            int row = hall.seat(names[i], sizes[i]);
            System.out.println(names[i] + ", " + sizes[i] + " people: " + (row < 0 ? "no room" : "row " + (row + 1)));
        }
        hall.show();
        System.out.println(hall.leave("B") + " leave, then " + hall.leave("X"));
        System.out.println("G sits in row " + (hall.seat("G", 3) + 1));
        hall.show();
    }
}
