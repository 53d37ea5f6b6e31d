// Operands and arguments are worked out from left to right, all of them before the operation or the call.
class Main {
    static int show(int n) {
        System.out.println(n);
        return n;
    }

    static int three(int a, int b, int c) {
        return a * 100 + b * 10 + c;
    }

    static void calls() {
        System.out.println(show(7) - show(2) * show(3));
        System.out.println(three(show(1), show(2), show(3)));
    }

    public static void main(String[] args) {
        calls();
        System.out.println(show(1) < show(0) == (show(4) > show(3)));
        System.out.println("" + show(5) + show(6));
        System.out.println((show(8) + show(9)) % show(10));
    }
}
