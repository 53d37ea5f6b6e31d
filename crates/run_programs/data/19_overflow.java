// Sums, differences, products and negation wrap.
class Main {
    static void arithmetic(int a, int b) {
        System.out.println((a + b) + " " + (a - b) + " " + a * b + " " + -a + " " + +b);
    }

    public static void main(String[] args) {
        arithmetic(2147483647, 1);
        arithmetic(-2147483648, 1);
        arithmetic(-2147483648, -2147483648);
        arithmetic(2147483647, 2147483647);
        arithmetic(65536, 65536);
        arithmetic(123456789, 987654321);
        int x = 2147483647;
        x++;
        System.out.println(x);
        x--;
        System.out.println(x);
        System.out.println(-(-2147483648));
        System.out.println(2147483647 + 1);
    }
}
