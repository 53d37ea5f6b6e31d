// Not by java: a run of a constructor is a live call, that of the superclass's constructor too, and a built-in class's
// constructor is none.
class Main {
    public static void main(String[] args) {
        Count count = new Count();
        try {
            new Low(count);
        } catch (StackOverflowError e) {
            System.out.println(count.high + " " + count.low);
        }
        System.out.println(deepest(2, null));
    }

    static int deepest(int depth, RuntimeException last) {
        try {
            return deepest(depth + 1, new RuntimeException());
        } catch (StackOverflowError e) {
            return depth;
        }
    }
}

class Count {
    int high;
    int low;
}

class High {
    High(Count count) {
        count.high++;
    }
}

class Low extends High {
    Low(Count count) {
        super(count);
        count.low++;
        new Low(count);
    }
}
