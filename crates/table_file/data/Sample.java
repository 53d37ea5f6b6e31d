class A {
  int x;
  int m(int a) { return a; }
  public static void main(String[] args) { }
}
class B extends A {
  boolean m(int a) { return true; }
}
