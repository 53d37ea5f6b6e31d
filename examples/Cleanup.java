/** Exceptions of several kinds, and cleaning up whatever happens. */
class Cleanup {
    public static void main(String[] args) {
        for (int number = 1; number <= 6; number++) {
            System.out.println("job " + number + ": " + run(number));
        }
    }

    static String run(int number) {
        Printer printer = new Printer(number);
        try {
            printer.open();
            return "printed " + printer.print(number * 3) + " pages";
        } catch (PaperJam e) {
            return "jam at page " + e.page() + (e.isHard() ? ", call for help" : "");
        } catch (PrinterProblem e) {
            return e.getMessage();
        } catch (IllegalStateException e) {
            return "wrong state: " + e.getMessage();
        } finally {
            printer.close();
        }
    }
}

class PrinterProblem extends Exception {
    private int code;

    PrinterProblem(int code, String text) {
        super(text);
        this.code = code;
    }

    public String getMessage() {
        return "problem " + code + ": " + super.getMessage();
    }
}

class PaperJam extends PrinterProblem {
    private int page;

    PaperJam(int page) {
        super(7, "jam");
        this.page = page;
    }

    int page() {
        return page;
    }

    boolean isHard() {
        return page > 5;
    }
}

class Printer {
    private int number;
    private boolean isOpen;
    private int locks;
    private int ink = 1000;

    Printer(int number) {
        this.number = number;
    }

    void open() throws PrinterProblem {
        if (number == 2) {
            throw new PrinterProblem(3, "no power");
        }
        isOpen = number != 4;
    }

    int print(int pages) throws PaperJam {
        if (!isOpen) {
            throw new IllegalStateException("closed");
        }
        int done = 0;
        for (int page = 1; page <= pages; page++) {
            locks++;
            try {
                print(page, number == 5 ? page - 2 : page);
            } catch (ArithmeticException e) {
                System.out.println("  page " + page + " is left out");
                continue;
            } finally {
                locks--;
            }
            done++;
        }
        return done;
    }

    private void print(int page, int parts) throws PaperJam {
        if (number == 3 && page == 4 || number == 6 && page == 9) {
            throw new PaperJam(page);
        }
        ink -= 100 / parts;
    }

    void close() {
        System.out.println("  close " + number + (isOpen ? ", ink " + ink : "") + (locks == 0 ? "" : ", still locked"));
        isOpen = false;
    }
}
