// Run with the arguments 'a', '', 'é😀' and 'a b'.
class Main {
    public static void main(String[] args) {
        System.out.println(args.length);
        for (int i = 0; i < args.length; i++) {
            System.out.println(args[i].length() + " " + args[i]);
        }
        args[1] = "changed";
        System.out.println(args[0] + args[1]);
        args = new String[1];
        System.out.println(args[0]);
    }
}
