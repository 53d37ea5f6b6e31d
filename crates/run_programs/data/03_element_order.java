// An assignment to an element works out the array, the index and the value, and only then looks for null and the index.
class Main {
    static int[] array(int[] a) {
        System.out.print("a");
        return a;
    }

    static int index(int i) {
        System.out.print("i");
        return i;
    }

    static int value(int v) {
        System.out.print("v");
        return v;
    }

    static void store(int[] a, int i) {
        try {
            array(a)[index(i)] = value(7);
            System.out.println(" " + a[i]);
        } catch (NullPointerException e) {
            System.out.println(" null");
        } catch (ArrayIndexOutOfBoundsException e) {
            System.out.println(" outside");
        }
    }

    static void read(int[] a, int i) {
        try {
            System.out.println(array(a)[index(i)]);
        } catch (NullPointerException e) {
            System.out.println(" null");
        } catch (IndexOutOfBoundsException e) {
            System.out.println(" outside");
        }
    }

    public static void main(String[] args) {
        store(new int[2], 1);
        store(new int[2], 2);
        store(new int[2], -1);
        store(null, 5);
        read(new int[3], 2);
        read(new int[3], 3);
        read(new int[3], -1);
        read(null, index(1));
    }
}
