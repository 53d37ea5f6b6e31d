// An array takes what its own element class allows, whatever the type of the variable is.
class Main {
    static void store(Object[] a, Object o) {
        try {
            a[0] = o;
            System.out.println(a[0] == o);
        } catch (ArrayStoreException e) {
            System.out.println("refused " + (a[0] == null));
        }
    }

    static void outside(Object[] a, Object o) {
        try {
            a[1] = o;
        } catch (ArrayIndexOutOfBoundsException e) {
            System.out.println("outside");
        }
    }

    static void instances() {
        store(new Object[1], new Main());
        store(new Main[1], new Main());
        store(new Main[1], new Sub());
    }

    static void refused_instances() {
        store(new Main[1], new Object());
        store(new Sub[1], new Main());
        store(new Sub[1], null);
    }

    static void arrays() {
        store(new int[1][], new int[2]);
        store(new int[1][], new boolean[2]);
    }

    static void arrays_of_references() {
        store(new Object[1][], new Sub[2]);
        store(new Sub[1][], new Main[2]);
        store(new Object[1], new int[2]);
    }

    public static void main(String[] args) {
        instances();
        refused_instances();
        arrays();
        arrays_of_references();
        outside(new Sub[1], new Main());
        Object[] last = new Sub[1];
        last[0] = new Object();
    }
}

class Sub extends Main {
}
