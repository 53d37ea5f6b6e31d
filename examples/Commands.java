/** A small machine with a stack and named cells, which runs a list of commands. */
class Commands {
    public static void main(String[] args) {
        Program p = new Program();
        p.add("push", 1).add("store", 0).add("push", 6).add("store", 1);
        int loop = p.size();
        p.add("load", 1).add("leave", loop + 11);
        p.add("load", 0).add("load", 1).add("times", 0).add("store", 0);
        p.add("load", 1).add("push", -1).add("plus", 0).add("store", 1);
        p.add("jump", loop);
        p.add("load", 0).add("show", 0);
        run(p);
        run(new Program().add("push", 2).add("plus", 0));
        run(new Program().add("load", 9));
        run(new Program().add("dance", 1));
        run(new Program().add("jump", 0));
    }

    static void run(Program p) {
        try {
            System.out.println("ends after " + new Machine().run(p) + " commands");
        } catch (Fault e) {
            System.out.println("fault: " + e.getMessage());
        }
    }
}

class Fault extends Exception {
    Fault(String text) {
        super(text);
    }
}

class Program {
    private String[] words = new String[20];
    private int[] numbers = new int[20];
    private int size;

    Program add(String word, int number) {
        words[size] = word;
        numbers[size] = number;
        size++;
        return this;
    }

    int size() {
        return size;
    }

    String word(int at) {
        return words[at];
    }

    int number(int at) {
        return numbers[at];
    }
}

class Machine {
    private static final int LIMIT = 1000;
    private int[] stack = new int[16];
    private int height;
    private int[] cells = new int[4];
    private int at;

    int run(Program p) throws Fault {
        int steps = 0;
        while (at < p.size()) {
            if (steps == LIMIT) {
                throw new Fault("no end within " + LIMIT + " commands");
            }
            steps++;
            at++;
            step(p.word(at - 1), p.number(at - 1));
        }
        return steps;
    }

    private void step(String word, int n) throws Fault {
        if (word.equals("push")) {
            push(n);
        } else if (word.equals("load")) {
            push(cells[cell(n)]);
        } else if (word.equals("store")) {
            cells[cell(n)] = pop();
        } else if (word.equals("plus")) {
            push(pop() + pop());
        } else if (word.equals("times")) {
            push(pop() * pop());
        } else if (word.equals("jump")) {
            at = n;
        } else if (word.equals("leave")) {
            at = pop() == 0 ? n : at;
        } else if (word.equals("show")) {
            System.out.println(pop());
        } else {
            throw new Fault("unknown command " + word);
        }
    }

    private int cell(int n) throws Fault {
        if (n < 0 || n >= cells.length) {
            throw new Fault("no cell " + n);
        }
        return n;
    }

    private void push(int value) {
        stack[height] = value;
        height++;
    }

    private int pop() throws Fault {
        if (height == 0) {
            throw new Fault("the stack is empty");
        }
        height--;
        return stack[height];
    }
}
