// The first catch whose class the exception has takes it; what a catch throws is not for the catches beside it.
class Main {
    static void fail(int way) throws Exception {
        if (way == 0) {
            throw new Small("small");
        }
        if (way == 1) {
            throw new Large("large");
        }
        if (way == 2) {
            throw new RuntimeException("runtime");
        }
        if (way == 3) {
            throw new Error("error");
        }
        throw new Exception("checked");
    }

    static void sort(int way) throws Exception {
        try {
            fail(way);
        } catch (Small e) {
            System.out.println("Small " + e.getMessage());
        } catch (Large e) {
            System.out.println("Large " + e.getMessage());
            throw new Small("thrown again");
        } catch (RuntimeException e) {
            System.out.println("RuntimeException " + e.getMessage());
            throw e;
        } catch (Error e) {
            System.out.println("Error " + e.getMessage());
        }
    }

    public static void main(String[] args) {
        for (int way = 0; way < 5; way++) {
            try {
                sort(way);
            } catch (Throwable e) {
                System.out.println("main " + e.getMessage());
            }
        }
    }
}

class Large extends Exception {
    Large(String text) {
        super(text);
    }
}

class Small extends Large {
    Small(String text) {
        super("<" + text + ">");
    }
}
