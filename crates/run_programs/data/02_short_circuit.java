// Only what is needed is worked out by && and || and ?: while & and | and ^ work out both sides.
class Main {
    static boolean say(String name, boolean value) {
        System.out.print(name);
        return value;
    }

    static int count(String name, int value) {
        System.out.print(name);
        return value;
    }

    static void conditions() {
        System.out.println(say("a", false) && say("b", true));
        System.out.println(say("c", true) && say("d", true));
        System.out.println(say("e", true) || say("f", true));
        System.out.println(say("g", false) || say("h", false));
    }

    static void choices() {
        System.out.println(say("o", true) ? count("p", 1) : count("q", 2));
        System.out.println(!say("r", true) ? count("s", 1) : count("t", 2));
        System.out.println(say("u", false) && say("v", true) || say("w", true));
    }

    public static void main(String[] args) {
        conditions();
        choices();
        System.out.println(say("i", false) & say("j", true));
        System.out.println(say("k", true) | say("l", true));
        System.out.println(say("m", true) ^ say("n", true));
    }
}
