// An int, a boolean, null and texts behind one another; a sum before the first text is a sum.
class Main {
    static String nothing() {
        return null;
    }

    public static void main(String[] args) {
        String none = null;
        System.out.println("a" + 1 + 2);
        System.out.println(1 + 2 + "a" + 1 * 2);
        System.out.println("a" + null);
        System.out.println(null + "a");
        System.out.println(none + nothing());
        System.out.println(true + "a" + false);
        System.out.println("" + -2147483648 + 2147483647 + 0);
        System.out.println((none + "").length());
        System.out.println((none + "").equals("null"));
        System.out.print("");
        System.out.println("");
        System.out.println();
        System.out.print(none);
        System.out.print(true);
        System.out.println(none);
    }
}
