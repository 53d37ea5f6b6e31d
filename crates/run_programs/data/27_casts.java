// Casts and instanceof go by the class of the object; null passes every cast and is an instance of nothing.
class Main {
    static void to_low(Object o) {
        System.out.print((o instanceof Low) + " " + (o instanceof High) + " " + (o instanceof Object) + " ");
        try {
            Low low = (Low) o;
            System.out.println(low == o);
        } catch (ClassCastException e) {
            System.out.println("refused");
        }
    }

    static void to_array(Object o) {
        System.out.print((o instanceof int[]) + " " + (o instanceof Object[]) + " " + (o instanceof High[]) + " ");
        try {
            High[] array = (High[]) o;
            System.out.println(array == o);
        } catch (ClassCastException e) {
            System.out.println("refused");
        }
    }

    public static void main(String[] args) {
        to_low(new Low());
        to_low(new High());
        to_low(new Object());
        to_low(null);
        to_low(new Low[1]);
        to_array(new Low[1]);
        to_array(new High[1]);
        to_array(new Object[1]);
        to_array(new int[1]);
        to_array(new int[1][]);
        to_array(new Low());
        to_array(null);
        High high = (High) new Low();
        System.out.println(((Low) high).name());
        Low low = (Low) new High();
    }
}

class High {
}

class Low extends High {
    String name() {
        return "low";
    }
}
