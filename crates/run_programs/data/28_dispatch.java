// The class of the object chooses the body; super calls go to the superclass's body; a field goes by its place.
class Main {
    static void tell(Top top) {
        System.out.println(top.name() + " " + top.twice(3) + " " + top.whole());
    }

    public static void main(String[] args) {
        tell(new Top());
        tell(new Middle());
        tell(new Bottom());
        Middle middle = new Bottom();
        System.out.println(middle.name(7));
        System.out.println(middle.x + middle.y);
    }
}

class Top {
    int x = 1;

    String name() {
        return "top";
    }

    int twice(int n) {
        return 2 * n * x;
    }

    String whole() {
        return "[" + name() + "]";
    }
}

class Middle extends Top {
    int y = 10;

    String name() {
        return "middle of " + super.name();
    }

    String name(int n) {
        return name() + " " + n;
    }

    int twice(int n) {
        return super.twice(n) + y;
    }
}

class Bottom extends Middle {
    String name() {
        return "bottom of " + super.name();
    }

    String whole() {
        return super.whole() + "!";
    }
}
