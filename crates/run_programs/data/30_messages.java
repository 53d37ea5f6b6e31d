// getMessage gives the message that the constructor was given, or runs the override of the object's class.
class Main {
    static void tell(Throwable e) {
        System.out.println(e.getMessage());
    }

    public static void main(String[] args) {
        tell(new Throwable());
        tell(new RuntimeException("given"));
        tell(new Plain());
        tell(new Named("name"));
        tell(new Loud("loud"));
        tell(new Louder("louder"));
        try {
            throw new Louder("thrown");
        } catch (Named e) {
            System.out.println(e.getMessage());
        }
        String none = null;
        System.out.println(new Error(none).getMessage() == null);
    }
}

class Plain extends Exception {
}

class Named extends RuntimeException {
    Named(String name) {
        super(name);
    }
}

class Loud extends Named {
    Loud(String name) {
        super(name);
    }

    public String getMessage() {
        return super.getMessage() + "!";
    }
}

class Louder extends Loud {
    Louder(String name) {
        super(name + name);
    }

    public String getMessage() {
        return super.getMessage() + "!!";
    }
}
