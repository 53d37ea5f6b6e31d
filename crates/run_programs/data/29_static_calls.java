// Static methods of this class and of others, recursion, recursion of two methods, and constants.
class Main {
    static final int WIDTH = 6;
    static final String NAME = "w" + WIDTH;

    static int fibonacci(int n) {
        if (n < 2) {
            return n;
        }
        return fibonacci(n - 1) + fibonacci(n - 2);
    }

    static boolean even(int n) {
        return n == 0 || Other.odd(n - 1);
    }

    public static void main(String[] args) {
        System.out.println(fibonacci(10));
        System.out.println(even(10) + " " + even(7) + " " + Other.odd(7));
        System.out.println(Other.power(2, 10) + " " + Other.power(3, 0));
        System.out.println(WIDTH * 7 + NAME);
        System.out.println(Other.LIMIT - 1);
    }
}

class Other {
    static final int LIMIT = 2147483647;

    static boolean odd(int n) {
        return n != 0 && Main.even(n - 1);
    }

    static int power(int base, int exponent) {
        int result = 1;
        for (int i = 0; i < exponent; i++) {
            result *= base;
        }
        return result;
    }
}
