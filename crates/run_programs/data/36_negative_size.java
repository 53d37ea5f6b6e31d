// A negative size throws once it is worked out, and no array is made; the size 0 is allowed.
class Main {
    static int size(int n) {
        System.out.print("size ");
        return n;
    }

    static void make(int n) {
        try {
            int[] a = new int[size(n)];
            System.out.println(a.length);
        } catch (NegativeArraySizeException e) {
            System.out.println("negative");
        }
    }

    public static void main(String[] args) {
        make(3);
        make(0);
        make(-1);
        make(-2147483648);
        Object[] last = new Main[size(-5)];
        System.out.println(last.length);
    }
}
