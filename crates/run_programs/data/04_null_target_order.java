// A field's new value and a call's arguments are worked out before null is found; a field is read at once.
class Main {
    static Box box(Box b) {
        System.out.print("b");
        return b;
    }

    static int value(int v) {
        System.out.print("v");
        return v;
    }

    static void store(Box b) {
        try {
            box(b).n = value(7);
            System.out.println(" " + b.n);
        } catch (NullPointerException e) {
            System.out.println(" null");
        }
    }

    static void call(Box b) {
        try {
            System.out.println(box(b).plus(value(1), value(2)));
        } catch (NullPointerException e) {
            System.out.println(" null");
        }
    }

    static void read(Box b) {
        try {
            System.out.println(box(b).n + value(1));
        } catch (NullPointerException e) {
            System.out.println(" null");
        }
    }

    public static void main(String[] args) {
        store(new Box());
        store(null);
        call(new Box());
        call(null);
        read(new Box());
        read(null);
    }
}

class Box {
    int n = 40;

    int plus(int a, int b) {
        return n + a + b;
    }
}
