// Division goes towards zero, a remainder has the sign of the dividend, and a zero divisor throws.
class Main {
    static void both(int a, int b) {
        try {
            System.out.print(a / b);
            System.out.print(" ");
            System.out.println(a % b);
        } catch (ArithmeticException e) {
            System.out.println("zero");
        }
    }

    static void remainder(int a, int b) {
        try {
            System.out.println(a % b);
        } catch (ArithmeticException e) {
            System.out.println("zero");
        }
    }

    public static void main(String[] args) {
        both(7, 2);
        both(-7, 2);
        both(7, -2);
        both(-7, -2);
        both(-2147483648, -1);
        both(-2147483648, 1);
        both(-2147483648, 2147483647);
        both(2147483647, -2147483648);
        both(0, -5);
        both(5, 0);
        remainder(-2147483648, 0);
        System.out.println(1 / 0);
    }
}
