class Locals {
  public static void main(String[] args) {
    int width = 2147483647;
    int wrapped = width + 1;
    System.out.println(wrapped);
    System.out.println(wrapped - 1 - width + 5);
  }
}
