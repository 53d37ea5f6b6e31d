/** Builds the text of a receipt, with columns, rules and a total. */
class Receipt {
    private static final int WIDTH = 30;
    private static final String TITLE = "Corner" + " " + "Shop";
    private static final String NOTE = "at most " + (WIDTH - 2) + " signs a line";

    private Text text = new Text();
    private int total;

    void item(String name, int amount, int cents) {
        int price = amount * cents;
        total += price;
        String left = amount == 1 ? name : amount + " x " + name;
        line(left, money(price));
    }

    void line(String left, String right) {
        int room = WIDTH - 2 - left.length() - right.length();
        text.add("|").add(left).add(Text.repeat(".", room)).add(right).add("|").end();
    }

    void rule() {
        text.add("+").add(Text.repeat("-", WIDTH - 2)).add("+").end();
    }

    void centred(String title) {
        int room = WIDTH - 2 - title.length();
        text.add("|").add(Text.repeat(" ", room / 2)).add(title).add(Text.repeat(" ", room - room / 2)).add("|").end();
    }

    static String money(int cents) {
        if (cents < 0) {
            return "-" + money(-cents);
        }
        int rest = cents % 100;
        return cents / 100 + (rest < 10 ? ".0" : ".") + rest;
    }

    public static void main(String[] args) {
        Receipt r = new Receipt();
        r.rule();
        r.centred(TITLE);
        r.rule();
        r.item("bread", 1, 349);
        r.item("apple", 7, 45);
        r.item("milk", 2, 99);
        r.item("voucher", 1, -205);
        r.item("umbrella", 1, 129000);
        r.rule();
        r.line("total", money(r.total));
        r.rule();
        System.out.print(r.text.get());
        System.out.println(r.text.lines() + " lines, " + NOTE);
        System.out.println("widest: " + r.text.widest());
    }
}

/** A text that grows line by line. */
class Text {
    private String done = "";
    private String line = "";
    private int lines;
    private int widest;

    Text add(String more) {
        line += more;
        return this;
    }

    void end() {
        if (line.length() > widest) {
            widest = line.length();
        }
        done += line + "\n";
        line = "";
        lines++;
    }

    String get() {
        return done + line;
    }

    int lines() {
        return lines;
    }

    int widest() {
        return widest;
    }

    static String repeat(String part, int times) {
        String all = "";
        while (times > 0) {
            if ((times & 1) == 1) {
                all += part;
            }
            part += part;
            times >>= 1;
        }
        return all;
    }
}
