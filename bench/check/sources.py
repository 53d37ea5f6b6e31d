"""Sources for the check of names and types: each shape in some sizes, as a text of at most that many bytes."""


def _main(body):
    return "class Main {\n    static void main(String[] args) {\n" + body + "    }\n}\n"


def _filled(most, before, one, after):
    """`one(i)` for i = 0, 1, .. between two texts, as often as the bytes allow."""
    parts, size, i = [before], len(before) + len(after), 0
    while True:
        part = one(i)
        if size + len(part) > most:
            break
        parts.append(part)
        size += len(part)
        i += 1
    parts.append(after)
    return "".join(parts)


def _in_main(most, start, one):
    before, after = _main(start + "@").split("@")
    return _filled(most, before, one, after)


def statements(most):
    return _in_main(most, "        int x = 0;\n", lambda i: f"        x = x * 31 + (x ^ {i});\n")


def locals_of_one_body(most):
    return _in_main(most, "        int x = 1;\n", lambda i: f"        int v{i} = x;\n")


def locals_of_blocks(most):
    return _in_main(most, "        int x = 1;\n", lambda i: f"        {{ int y = x; x = y + {i}; }}\n")


def calls(most):
    before = "class Main {\n    static int sum(int a, int b, int c) { return a + b + c; }\n    static void main(String[] args) {\n        int x = 0;\n"
    return _filled(most, before, lambda i: f"        x = sum(x, sum(1, 2, x), {i});\n", "    }\n}\n")


def texts(most):
    return _in_main(most, '        String s = "";\n', lambda i: f'        s = "turn {i} of " + s.length() + s;\n')


def methods(most):
    return _filled(most, "class Main {\n    static void main(String[] args) { }\n", lambda i: f"    int m{i}(int x) {{ return m{i}(x - 1); }}\n", "}\n")


def catches(most):
    one = lambda i: "        try { x = 1 / x; } catch (ArithmeticException e) { x = 1; } finally { x++; }\n"
    return _in_main(most, "        int x = 0;\n", one)


def constants(most):
    before = "class Main {\n    static void main(String[] args) { }\n    static final int K0 = 1;\n"
    return _filled(most, before, lambda i: f"    static final int K{i + 1} = K{i} * 3 + {i};\n", "}\n")


def chain_of_classes(most):
    """A thousand classes, each below the one before it, that use what the first one declares."""
    share = (most - 200) // 998
    before = "class Main {\n    static void main(String[] args) { }\n}\nclass A0 { int f; int g(int x) { return x; } }\n"
    one = lambda i: _filled(share, f"class A{i + 1} extends A{i} {{\n    void h{i}() {{\n", lambda k: "        f = g(f) + 1;\n", "    }\n}\n")
    return before + "".join(one(i) for i in range(998))


def subclasses(most):
    """900 classes that inherit a field with one long initialiser."""
    before = "class Main {\n    static void main(String[] args) { }\n}\n"
    after = "".join(f"class B{i} extends A {{ }}\n" for i in range(900))
    count = (most - len(before) - len(after) - 100) // len("int a99999, 1, ")
    params = ", ".join(f"int a{i}" for i in range(count))
    arguments = ", ".join(["1"] * count)
    return f"{before}class A {{\n    int f = sum({arguments});\n    int sum({params}) {{ return a0; }}\n}}\n{after}"


SHAPES = {
    "statements": statements,
    "locals of one body": locals_of_one_body,
    "locals of blocks": locals_of_blocks,
    "calls": calls,
    "texts": texts,
    "methods": methods,
    "try statements": catches,
    "constants": constants,
    "998 classes in a chain": chain_of_classes,
    "900 subclasses below a long initialiser": subclasses,
}
