// Not by java: a text has at most 1,048,576 code units.
class Main {
    public static void main(String[] args) {
        String text = "😀";
        try {
            while (true) {
                text += text;
                System.out.println(text.length());
            }
        } finally {
            System.out.println("not reached");
        }
    }
}
