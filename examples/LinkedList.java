/** A list of numbers in which each entry knows the next one. */
class LinkedList {
    private Entry first;
    private Entry last;
    private int size;

    void add(int value) {
        Entry entry = new Entry(value, null);
        if (first == null) {
            first = entry;
        } else {
            last.next = entry;
        }
        last = entry;
        size++;
    }

    void addFirst(int value) {
        first = new Entry(value, first);
        if (last == null) {
            last = first;
        }
        size++;
    }

    boolean remove(int value) {
        Entry before = null;
        for (Entry e = first; e != null; e = e.next) {
            if (e.value == value) {
                if (before == null) {
                    first = e.next;
                } else {
                    before.next = e.next;
                }
                if (e == last) {
                    last = before;
                }
                size--;
                return true;
            }
            before = e;
        }
        return false;
    }

    void reverse() {
        Entry done = null;
        Entry rest = first;
        last = first;
        while (rest != null) {
            Entry next = rest.next;
            rest.next = done;
            done = rest;
            rest = next;
        }
        first = done;
    }

    int get(int index) {
        if (index < 0 || index >= size) {
            throw new IllegalArgumentException("no entry " + index + " of " + size);
        }
        Entry e = first;
        for (int i = 0; i < index; i++) {
            e = e.next;
        }
        return e.value;
    }

    String show() {
        String text = "[";
        for (Entry e = first; e != null; e = e.next) {
            text += e == first ? "" : ", ";
            text += e.value;
        }
        return text + "]";
    }

    public static void main(String[] args) {
        LinkedList list = new LinkedList();
        System.out.println(list.show());
        for (int i = 1; i <= 5; i++) {
            list.add(i * i);
        }
        list.addFirst(-7);
        System.out.println(list.show() + " has " + list.size);
        System.out.println(list.remove(9) + " " + list.remove(10));
        System.out.println(list.remove(25) + " " + list.remove(-7));
        list.add(100);
        list.reverse();
        System.out.println(list.show() + " has " + list.size);
        System.out.println("entry 2 is " + list.get(2));
        try {
            list.get(4);
        } catch (IllegalArgumentException e) {
            System.out.println(e.getMessage());
        }
    }
}

class Entry {
    int value;
    Entry next;

    Entry(int value, Entry next) {
        this.value = value;
        this.next = next;
    }
}
