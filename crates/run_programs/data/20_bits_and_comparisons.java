// Bits of ints, the same operators on booleans, and comparisons of ints, booleans and references.
class Main {
    static void bits(int a, int b) {
        System.out.println((a & b) + " " + (a | b) + " " + (a ^ b) + " " + ~a);
    }

    static void compare(int a, int b) {
        System.out.print((a < b) + " " + (a <= b) + " " + (a > b) + " ");
        System.out.println((a >= b) + " " + (a == b) + " " + (a != b));
    }

    static void truths(boolean a, boolean b) {
        System.out.print((a & b) + " " + (a | b) + " " + (a ^ b) + " ");
        System.out.println((a == b) + " " + (a != b) + " " + !a);
    }

    static void references(Object a, Object b) {
        System.out.println((a == b) + " " + (a != b) + " " + (a == null) + " " + (null != b));
    }

    public static void main(String[] args) {
        bits(12, 10);
        bits(-1, 2147483647);
        bits(-2147483648, 255);
        compare(1, 2);
        compare(2, 2);
        compare(2147483647, -2147483648);
        truths(true, true);
        truths(true, false);
        truths(false, false);
        Main m = new Main();
        references(m, m);
        references(m, new Main());
        references(null, null);
        references(args, null);
    }
}
