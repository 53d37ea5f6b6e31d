// A shift takes the low five bits of its distance.
class Main {
    static void shift(int x, int by) {
        System.out.println((x << by) + " " + (x >> by) + " " + (x >>> by));
    }

    public static void main(String[] args) {
        shift(5, 0);
        shift(5, 1);
        shift(-5, 1);
        shift(-5, 31);
        shift(-5, 32);
        shift(-5, 33);
        shift(-5, -1);
        shift(1, 31);
        shift(1, 33);
        shift(1, -1);
        shift(-2147483648, 31);
        shift(2147483647, -2147483648);
        shift(2147483647, 30);
    }
}
