// Arguments, the superclass's constructor, field initialisers, body; a virtual call sees fields that are not yet set.
class Main {
    static int show(String name, int n) {
        System.out.println(name + " " + n);
        return n;
    }

    public static void main(String[] args) {
        Low low = new Low(show("main", 3));
        System.out.println(low.x + " " + low.y + " " + low.text);
        High high = new High(show("main", 4));
        System.out.println(high.x);
    }
}

class High {
    int x = Main.show("x", 1);

    High(int n) {
        System.out.println("High " + n + " " + x);
        hook();
        x = n;
    }

    void hook() {
        System.out.println("High.hook " + x);
    }
}

class Low extends High {
    int y = Main.show("y", x + 20);
    String text = "set";

    Low(int n) {
        super(Main.show("argument", n * 10));
        System.out.println("Low " + n + " " + y);
        hook();
    }

    void hook() {
        System.out.println("Low.hook " + x + " " + y + " " + text);
    }
}
