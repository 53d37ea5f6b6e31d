// Not by java: an array takes a cell for itself and one for each element, and a heap has at most 16,777,216 cells. The
// array of the arguments counts too. An array that doesn't fit ends the run, and no finally runs.
class Main {
    public static void main(String[] args) {
        try {
            int[] a = new int[16777215 - 2 * args.length];
            System.out.println(a.length);
        } finally {
            System.out.println("made");
        }
    }
}
