// null where an object, an array or a text is needed.
class Main {
    int n;
    int[] numbers;
    String text;

    int get() {
        return n;
    }

    static int use(int way, Main m, String s, RuntimeException e) {
        if (way == 0) {
            return m.n;
        }
        if (way == 1) {
            return m.get();
        }
        if (way == 2) {
            return m.numbers.length;
        }
        if (way == 3) {
            return s.length();
        }
        return use_more(way, m, s, e);
    }

    static int use_more(int way, Main m, String s, RuntimeException e) {
        if (way == 4) {
            return s.equals("x") ? 1 : 2;
        }
        if (way == 5) {
            return e.getMessage() == null ? 1 : 2;
        }
        return set(way, m, e);
    }

    static int set(int way, Main m, RuntimeException e) {
        if (way == 6) {
            throw e;
        }
        m.n = 3;
        return m.n;
    }

    static void run(int way, Main m, String s, RuntimeException e) {
        try {
            System.out.println(use(way, m, s, e));
        } catch (NullPointerException thrown) {
            System.out.println("null");
        } catch (IllegalStateException thrown) {
            System.out.println("thrown");
        }
    }

    public static void main(String[] args) {
        for (int way = 0; way <= 7; way++) {
            run(way, null, null, null);
        }
        Main m = new Main();
        m.numbers = new int[4];
        for (int way = 0; way <= 7; way++) {
            run(way, m, "xyz", new IllegalStateException());
        }
        run(2, new Main(), "x", null);
        System.out.println("x".equals(m.text));
        System.out.println("x".equals("x"));
    }
}
