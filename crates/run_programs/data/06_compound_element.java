// A compound assignment to an element finds null and the index before it works out its operand.
class Main {
    static int[] array(int[] a) {
        System.out.print("a");
        return a;
    }

    static int index(int i) {
        System.out.print("i");
        return i;
    }

    static int value(int v) {
        System.out.print("v");
        if (v == 99) {
            throw new IllegalStateException();
        }
        return v;
    }

    static void remainder(int[] a, int i, int by) {
        try {
            array(a)[index(i)] %= value(by);
            System.out.println(" " + a[i]);
        } catch (NullPointerException e) {
            System.out.println(" null");
        } catch (ArrayIndexOutOfBoundsException e) {
            System.out.println(" outside");
        } catch (ArithmeticException e) {
            System.out.println(" zero " + a[i]);
        } catch (IllegalStateException e) {
            System.out.println(" thrown " + a[i]);
        }
    }

    public static void main(String[] args) {
        int[] a = new int[2];
        a[1] = -17;
        remainder(a, 1, 0);
        remainder(a, 1, 99);
        remainder(a, 1, 5);
        remainder(a, 2, 5);
        remainder(a, -1, 0);
        remainder(null, 9, 99);
    }
}
