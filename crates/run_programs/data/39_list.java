// An ordinary program: numbers are put into a linked list in order, and the list is turned round.
class Main {
    public static void main(String[] args) {
        List list = new List();
        list.insert(5);
        list.insert(1);
        list.insert(3);
        list.insert(3);
        list.insert(-2);
        list.print();
        list.reverse();
        list.print();
        System.out.println(list.count);
    }
}

class List {
    Node first;
    int count;

    void insert(int value) {
        count++;
        if (first == null || first.value >= value) {
            first = new Node(value, first);
            return;
        }
        insert_behind(first, value);
    }

    void insert_behind(Node first, int value) {
        Node at = first;
        while (at.next != null && at.next.value < value) {
            at = at.next;
        }
        at.next = new Node(value, at.next);
    }

    void reverse() {
        Node turned = null;
        while (first != null) {
            Node rest = first.next;
            first.next = turned;
            turned = first;
            first = rest;
        }
        first = turned;
    }

    void print() {
        for (Node at = first; at != null; at = at.next) {
            System.out.print(at.value + " ");
        }
        System.out.println();
    }
}

class Node {
    int value;
    Node next;

    Node(int value, Node next) {
        this.value = value;
        this.next = next;
    }
}
