/** Sorts an array of numbers in several ways, and counts the comparisons. */
class Sorting {
    private int comparisons;

    boolean isLess(int a, int b) {
        comparisons++;
        return a < b;
    }

    void sort(int[] a) {
        for (int i = 1; i < a.length; i++) {
            int value = a[i];
            int j = i;
            while (j > 0 && isLess(value, a[j - 1])) {
                a[j] = a[j - 1];
                j--;
            }
            a[j] = value;
        }
    }

    String name() {
        return "insertion";
    }

    int[] sorted(int[] a) {
        int[] copy = new int[a.length];
        for (int i = 0; i < a.length; i++)
            copy[i] = a[i];
        comparisons = 0;
        sort(copy);
        return copy;
    }

    static String show(int[] a) {
        String text = "";
        for (int i = 0; i < a.length; i++)
            text += " " + a[i];
        return text;
    }

    public static void main(String[] args) {
        int[] numbers = new int[16];
        int next = 2147483647;
        for (int i = 0; i < numbers.length; i++) {
            next = next * 1103515245 + 12345;
            numbers[i] = (next >>> 16) % 100 - 50;
        }
        System.out.println("unsorted:" + show(numbers));
        Sorting[] ways = new Sorting[3];
        ways[0] = new Sorting();
        ways[1] = new Merging();
        ways[2] = new Backward();
        for (int i = 0; i < ways.length; i++) {
            int[] sorted = ways[i].sorted(numbers);
            System.out.println(ways[i].name() + ", " + ways[i].comparisons + " comparisons:" + show(sorted));
        }
    }
}

class Merging extends Sorting {
    String name() {
        return "merging";
    }

    void sort(int[] a) {
        sort(a, new int[a.length], 0, a.length);
    }

    private void sort(int[] a, int[] room, int from, int to) {
        if (to - from < 2)
            return;
        int middle = (from + to) / 2;
        sort(a, room, from, middle);
        sort(a, room, middle, to);
        int left = from;
        int right = middle;
        for (int i = from; i < to; i++)
            if (right == to || left < middle && !isLess(a[right], a[left])) {
                room[i] = a[left];
                left++;
            } else {
                room[i] = a[right];
                right++;
            }
        for (int i = from; i < to; i++)
            a[i] = room[i];
    }
}

class Backward extends Sorting {
    boolean isLess(int a, int b) {
        return super.isLess(b, a);
    }

    String name() {
        return super.name() + " backward";
    }
}
