// An exception that nothing takes, without a message.
class Main {
    public static void main(String[] args) throws Exception {
        System.out.println("before");
        throw new Plain();
    }
}

class Plain extends Exception {
    Plain() {
        System.out.println("made");
    }
}
