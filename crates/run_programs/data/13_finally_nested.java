// A finally runs after the catch that took the exception, also where that catch throws; the value of a return is kept.
class Main {
    static int kept() {
        int x = 1;
        try {
            return x;
        } finally {
            x = 2;
            System.out.print("kept ");
        }
    }

    static String nested(int way) {
        String log = "";
        try {
            try {
                log += "a";
                if (way > 0) {
                    throw new IllegalStateException("b");
                }
            } catch (IllegalStateException e) {
                log += e.getMessage();
                if (way > 1) {
                    throw new UnsupportedOperationException("c");
                }
            } finally {
                log += "d";
                try {
                    throw new Exception("e");
                } catch (Exception e) {
                    log += e.getMessage();
                }
            }
            log += "f";
        } catch (UnsupportedOperationException e) {
            log += e.getMessage();
        } finally {
            log += "g";
        }
        return log;
    }

    public static void main(String[] args) {
        System.out.println(kept());
        System.out.println(nested(0));
        System.out.println(nested(1));
        System.out.println(nested(2));
    }
}
