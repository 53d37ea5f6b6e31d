// Not by java: 65,536 calls may be live, that of main among them, and the call beyond throws in its caller.
class Main {
    static int deepest(int depth) {
        try {
            return deepest(depth + 1);
        } catch (StackOverflowError e) {
            System.out.println(e.getMessage());
            return depth;
        }
    }

    static void endless() {
        endless();
    }

    public static void main(String[] args) {
        System.out.println(deepest(2));
        endless();
    }
}
