// A throw of null throws a NullPointerException, which a catch can take; the second one ends the run.
class Main {
    static void fail() throws Exception {
        Exception none = null;
        throw none;
    }

    public static void main(String[] args) throws Exception {
        try {
            fail();
        } catch (NullPointerException e) {
            System.out.println("taken " + (e == null));
        }
        fail();
    }
}
