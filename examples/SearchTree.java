/** A binary tree that keeps numbers in order and counts how often each was added. */
class SearchTree {
    private Node root;

    void add(int key) {
        if (root == null) {
            root = new Node(key);
        } else {
            root.add(key);
        }
    }

    boolean contains(int key) {
        Node at = root;
        while (at != null) {
            if (key == at.key) {
                return true;
            }
            at = key < at.key ? at.left : at.right;
        }
        return false;
    }

    int height() {
        return heightOf(root);
    }

    private static int heightOf(Node n) {
        if (n == null) {
            return 0;
        }
        int left = heightOf(n.left);
        int right = heightOf(n.right);
        return 1 + (left > right ? left : right);
    }

    /** Writes the keys in order into an array, from this place on, and gives the place behind them. */
    private static int collect(Node n, int[] into, int place) {
        if (n == null) {
            return place;
        }
        place = collect(n.left, into, place);
        into[place] = n.key;
        return collect(n.right, into, place + 1);
    }

    int[] keys() {
        int[] all = new int[root == null ? 0 : root.size()];
        collect(root, all, 0);
        return all;
    }

    private static void draw(Node n, String indent) {
        if (n == null) {
            return;
        }
        draw(n.right, indent + "    ");
        System.out.println(indent + n.key + (n.count > 1 ? " x" + n.count : ""));
        draw(n.left, indent + "    ");
    }

    public static void main(String[] args) {
        SearchTree tree = new SearchTree();
        int next = 17;
        for (int i = 0; i < 12; i++) {
            tree.add(next);
            next = (next * 13 + 5) % 41;
        }
        tree.add(17);
        tree.add(17);
        draw(tree.root, "");
        int[] keys = tree.keys();
        String line = "";
        for (int i = 0; i < keys.length; i++) {
            line += " " + keys[i];
        }
        System.out.println(keys.length + " keys:" + line);
        System.out.println("height " + tree.height());
        System.out.println(tree.contains(keys[0]) + " " + tree.contains(41));
    }
}

class Node {
    int key;
    int count = 1;
    Node left;
    Node right;

    Node(int key) {
        this.key = key;
    }

    void add(int other) {
        if (other == key) {
            count++;
        } else if (other < key) {
            if (left == null) {
                left = new Node(other);
            } else {
                left.add(other);
            }
        } else if (right == null) {
            right = new Node(other);
        } else {
            right.add(other);
        }
    }

    int size() {
        return 1 + (left == null ? 0 : left.size()) + (right == null ? 0 : right.size());
    }
}
