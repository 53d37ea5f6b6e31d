// Not by java: the end of a run tells the message that the constructor was given, also where getMessage is overridden.
class Main {
    public static void main(String[] args) {
        System.out.println(new Masked("given").getMessage());
        throw new Masked("given");
    }
}

class Masked extends RuntimeException {
    Masked(String text) {
        super(text);
    }

    public String getMessage() {
        return "masked";
    }
}
