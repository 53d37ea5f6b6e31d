// An exception that nothing takes runs each finally on its way, inner ones first, and ends the run.
class Main {
    static void inner() {
        try {
            System.out.println("inner");
            throw new IllegalArgumentException("of inner");
        } catch (ArithmeticException e) {
            System.out.println("not this");
        } finally {
            System.out.println("inner finally");
        }
        System.out.println("not reached");
    }

    public static void main(String[] args) {
        try {
            inner();
            System.out.println("not reached");
        } finally {
            System.out.println("outer finally");
        }
        System.out.println("not reached");
    }
}
