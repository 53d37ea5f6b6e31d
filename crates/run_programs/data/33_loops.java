// A continue runs the updates of a for and the condition of a do; a break leaves the innermost loop alone.
class Main {
    static void counted() {
        int j = 10;
        for (int i = 0; i < j; i++, j -= 2) {
            if (i == 1) {
                continue;
            }
            System.out.println(i + " " + j);
        }
    }

    static void endless() {
        int n = 0;
        for (;;) {
            n++;
            if (n % 2 == 0) {
                continue;
            }
            if (n > 6) {
                break;
            }
            System.out.println(n);
        }
    }

    static boolean test(int n) {
        System.out.print("? ");
        return n < 3;
    }

    static void condition_last() {
        int n = 0;
        do {
            n++;
            if (n == 2) {
                continue;
            }
            System.out.print(n + " ");
        } while (test(n));
        System.out.println("end");
    }

    static void nested() {
        int n = 5;
        while (n > 0) {
            n--;
            for (int i = 0; ; i++) {
                if (i == n) {
                    break;
                }
                System.out.print(i);
            }
            System.out.println();
            if (n == 3) continue;
            else if (n == 1) break;
            System.out.println("-");
        }
    }

    public static void main(String[] args) {
        counted();
        endless();
        condition_last();
        nested();
        while (args.length > 9) ;
        do System.out.println("once"); while (false);
    }
}
