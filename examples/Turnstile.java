/** A turnstile as a state machine: each state is an object that says which one comes next. */
class Turnstile {
    State locked = new Locked();
    State open = new Open();
    State broken = new State("broken");
    private State now = locked;
    private int coins;
    private int visitors;

    void coin() {
        coins++;
        go(now.coin(this), "coin");
    }

    void push() {
        go(now.push(this), "push");
    }

    void enter() {
        visitors++;
    }

    boolean isFull() {
        return coins >= 5;
    }

    private void go(State next, String event) {
        System.out.println(now.name + " --" + event + "--> " + next.name);
        now = next;
    }

    public static void main(String[] args) {
        Turnstile t = new Turnstile();
        String[] events = new String[9];
        for (int i = 0; i < events.length; i++) {
            events[i] = i % 4 == 3 || i == 0 ? "push" : i == 5 ? "kick" : "coin";
        }
        for (int i = 0; i < events.length; i++) {
            try {
                t.handle(events[i]);
            } catch (UnsupportedOperationException e) {
                System.out.println("ignored: " + e.getMessage());
            }
        }
        System.out.println(t.coins + " coins, " + t.visitors + " visitors, " + t.now.name);
    }

    private void handle(String event) {
        if (event.equals("coin")) {
            coin();
        } else if (event.equals("push")) {
            push();
        } else {
            throw new UnsupportedOperationException(event);
        }
    }
}

class State {
    String name;

    State(String name) {
        this.name = name;
    }

    State coin(Turnstile t) {
        return this;
    }

    State push(Turnstile t) {
        return this;
    }
}

class Locked extends State {
    Locked() {
        super("locked");
    }

    State coin(Turnstile t) {
        return t.isFull() ? t.broken : t.open;
    }
}

class Open extends State {
    Open() {
        super("open");
    }

    State push(Turnstile t) {
        t.enter();
        return t.locked;
    }
}
