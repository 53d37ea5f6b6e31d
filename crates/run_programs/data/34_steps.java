// Not by java: a loop without end runs until its steps are spent; each turn takes 5 of them.
class Main {
    public static void main(String[] args) {
        System.out.println(1 + 2);
        while (true) {
            System.out.print("");
            continue;
        }
    }
}
