// A compound assignment to a field finds null before it works out its operand; where the operand fails, nothing is stored.
class Main {
    static Box box(Box b) {
        System.out.print("b");
        return b;
    }

    static int value(int v) {
        System.out.print("v");
        if (v == 99) {
            throw new IllegalStateException("ninety-nine");
        }
        return v;
    }

    static void divide(Box b, int by) {
        try {
            box(b).n /= value(by);
            System.out.print(" done");
        } catch (NullPointerException e) {
            System.out.print(" null");
        } catch (ArithmeticException e) {
            System.out.print(" zero");
        } catch (IllegalStateException e) {
            System.out.print(" " + e.getMessage());
        } finally {
            System.out.println(b == null ? "" : " " + b.n);
        }
    }

    public static void main(String[] args) {
        Box b = new Box();
        divide(b, 3);
        divide(b, 0);
        divide(b, 99);
        divide(null, 3);
        divide(null, 99);
        divide(b, -3);
    }
}

class Box {
    int n = 100;
}
