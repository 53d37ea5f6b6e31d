// The old value is read before the operand is worked out; each operator, also on texts and booleans.
class Main {
    int n = 10;

    int change() {
        n = 1000;
        return 5;
    }

    static int fill(int[] a) {
        a[0] = 1000;
        return 5;
    }

    static int ints(int x) {
        x += 7;
        x -= 2;
        x *= 3;
        x /= 2;
        x %= 100;
        x <<= 3;
        x >>= 1;
        x >>>= 1;
        x &= 62;
        x |= 1;
        x ^= 5;
        return x;
    }

    static boolean booleans(boolean b) {
        b &= true;
        b |= false;
        b ^= true;
        return b;
    }

    static String texts(String s) {
        s += 1;
        s += null;
        s += true;
        s += "x";
        return s;
    }

    public static void main(String[] args) {
        Main m = new Main();
        m.n += m.change();
        System.out.println(m.n);
        int[] a = new int[1];
        a[0] = 3;
        a[0] -= fill(a);
        a[0]++;
        m.n--;
        System.out.println(a[0] + " " + m.n);
        System.out.println(ints(20));
        System.out.println(booleans(true));
        System.out.println(texts("s"));
        System.out.println(texts(null));
    }
}
