// The length of a text counts UTF-16 code units; a character beyond 16 bits has two.
class Main {
    public static void main(String[] args) {
        String wide = "😀";
        System.out.println(wide.length());
        System.out.println("é😀".length());
        System.out.println("é😀");
        System.out.println((wide + wide).length());
        System.out.println(wide.equals("😀"));
        System.out.println(wide.equals("😁"));
        System.out.println((wide + "a").equals("😀" + "a"));
        System.out.println("".length());
        System.out.println("￿".length());
        System.out.println("\t\"\\".length());
        System.out.println("a\nb");
    }
}
