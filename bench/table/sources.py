"""The greatest sources for the class table: many classes with many methods, or with many constants."""

MAIN = "class Main { public static void main(String[] args) { } }\n"


def methods(first, count):
    """That many methods with numbered names."""
    return "".join(f"void m{k}(){{}}" for k in range(first, first + count))


def constants(first, count):
    """That many constants with numbered names."""
    return "".join(f"static final int k{k}=1;" for k in range(first, first + count))


def classes(count, is_chain, members):
    """That many classes beside `Main`, each below the one before it where they are a chain."""
    lines = [MAIN]
    for k in range(count):
        parent = f" extends C{k - 1}" if is_chain and k > 0 else ""
        lines.append(f"class C{k}{parent}{{{members(k)}}}\n")
    return "".join(lines)


def shapes():
    """Each source under its name."""
    most = 999
    return {
        "chain, the same 50 methods": classes(most, True, lambda k: methods(0, 50)),
        "beside, the same 50 methods": classes(most, False, lambda k: methods(0, 50)),
        "chain, 50 methods of its own each": classes(most, True, lambda k: methods(50 * k, 50)),
        "beside, 50 methods of its own each": classes(most, False, lambda k: methods(50 * k, 50)),
        "chain, 30 constants of its own each": classes(most, True, lambda k: constants(30 * k, 30)),
        "one class, 60,000 methods": classes(1, False, lambda k: methods(0, 60_000)),
        "the last before the first": MAIN + "".join(reversed(classes(most, True, lambda k: methods(0, 50)).splitlines(True)[1:])),
    }
