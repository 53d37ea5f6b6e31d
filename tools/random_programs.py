"""Random programs in planb's subset of Java, which javac accepts too.

Every program ends: a method calls only methods with a lower number, a constructor only the first of them, a field's
initialiser none, and each loop counts up a variable that nothing else changes. Jumps stand alone after an `if`, so that
javac finds no statement that can't be reached. Where the two languages differ, the program keeps to what both have: casts
go to classes of the file by way of Object, and only the file's own exceptions are asked for their messages.
"""

CLASSES = ["Main", "Low", "Lowest"]  # each is the superclass of the next
METHODS = 4
LOCALS = ["a", "b", "c", "d", "e", "number", "truth", "text"]  # three of them are fields too
FIELDS = {"number": "int", "truth": "boolean", "text": "String", "next": "Main", "row": "int[]", "friends": "Main[]"}
TYPES = ["int", "int", "int", "boolean", "String", "Main", "Low", "int[]", "Main[]"]
NUMBERS = ["0", "1", "2", "3", "7", "31", "32", "33", "255", "65536", "1000003", "2147483647", "-1", "-2147483648"]
TEXTS = ['""', '"a"', '"line\\n"', '"\\"\\\\"', '"gr\u00fc\u00df"', '"\U0001d11e"']
CAUGHT = ["RuntimeException", "ArithmeticException", "NullPointerException", "ClassCastException", "Exception", "Throwable"]
CAUGHT += ["IndexOutOfBoundsException", "NegativeArraySizeException", "ArrayStoreException", "Failure", "Problem"]
UNCHECKED = "Failure"
CHECKED = "Problem"


class Method:
    """What a call needs to know: its number, its result and its parameters."""

    def __init__(self, random, number):
        self.number = number
        self.is_static = random.random() < 0.25
        self.result = random.choice(TYPES + ["void"])
        self.parameters = [random.choice(TYPES) for _ in range(random.randint(0, 3))]
        self.is_checked = random.random() < 0.2

    def name(self):
        return f"m{self.number}"

    def head(self, names):
        parameters = ", ".join(f"{type_} {name}" for type_, name in zip(self.parameters, names))
        static = "static " if self.is_static else ""
        throws = f" throws {CHECKED}" if self.is_checked else ""
        return f"{static}{self.result} {self.name()}({parameters}){throws}"


class Body:
    """The statements of one method or constructor, and what is in scope at the place where the next one is written."""

    def __init__(self, program, calls, class_number, is_static, may_throw, result):
        self.program = program
        self.random = program.random
        self.calls = calls  # methods with a lower number than this may be called
        self.class_number = class_number
        self.is_static = is_static
        self.may_throw = may_throw  # whether a checked exception is caught or declared here
        self.result = result
        self.scope = []
        self.counters = []
        self.loops = 0
        self.creations = 0  # around the place where the next expression is written
        self.nesting = 0
        self.left = 2 if calls else 0  # calls and new objects that this body may still have

    # names

    def declare(self, type_):
        """A name that isn't in scope yet, in scope from here on; None where all are."""
        used = {name for name, _ in self.scope}
        free = [name for name in LOCALS if name not in used]
        if not free:
            return None
        name = self.random.choice(free)
        self.scope.append((name, type_))
        return name

    def initialised(self, type_, deep):
        """A new local and its initialiser, which stands in its scope already but doesn't read it."""
        name = self.declare(None)
        if name is None:
            return ";"
        value = self.value(type_, deep)
        self.scope[-1] = (name, type_)
        return f"{type_} {name} = {value};"

    def field(self, name):
        """A field of this object, by its name alone where no local hides it."""
        hidden = any(local == name for local, _ in self.scope)
        return f"this.{name}" if hidden or self.random.random() < 0.3 else name

    def places(self, type_, deep):
        """What can be assigned to, and has just this type."""
        found = [name for name, of in self.scope if of == type_ and name not in self.counters]
        fields = [name for name, of in FIELDS.items() if of == type_]
        if not self.is_static:
            found += [self.field(name) for name in fields]
        if deep > 0:
            found += [f"{self.object(deep - 1)}.{name}" for name in fields]
            if type_ in ("int", "Main"):
                found.append(f"{self.value(type_ + '[]', deep - 1, False)}[{self.index(deep - 1)}]")
        return found

    # expressions

    def index(self, deep):
        return self.random.choice(["0", "1", "2"]) if self.random.random() < 0.7 else self.value("int", deep)

    def object(self, deep):
        """An operand before a dot, of class Main."""
        known = [name for name, of in self.scope if of in ("Main", "Low")]
        if not self.is_static:
            known.append("this")
        if known and self.random.random() < 0.8:
            return self.random.choice(known)
        return self.value("Main", deep, False)

    def value(self, type_, deep, bare=True):
        """An expression of this type; with `bare` false one that may stand before a dot or a bracket."""
        made = self.composed(type_, deep) if deep > 0 and self.random.random() < 0.75 else None
        if made is None:
            made = self.simple(type_)
        if made.startswith("new ") and not bare:
            return f"({made})"
        return made

    def simple(self, type_):
        known = [name for name, of in self.scope if of == type_]
        if not self.is_static:
            known += [self.field(name) for name, of in FIELDS.items() if of == type_]
        if known and self.random.random() < 0.75:
            return self.random.choice(known)
        if type_ == "int":
            number = self.random.choice(NUMBERS)
            return f"({number})" if number.startswith("-") else number
        if type_ == "boolean":
            return self.random.choice(["true", "false"])
        if type_ == "String":
            return self.random.choice(TEXTS + ["Main.nothing()"])
        if type_ == "int[]":
            return f"new int[{self.random.randint(2, 4)}]"
        if type_ == "Main[]":
            return f"((Main[]) new {self.random.choice(CLASSES)}[{self.random.randint(2, 4)}])"
        if self.random.random() < 0.6 and self.calls and self.creations < 2:
            return self.new(self.random.choice(CLASSES if type_ == "Main" else CLASSES[1:]))
        return f"(({type_}) null)"

    def composed(self, type_, deep):
        """An expression of this type with operands, or None where there is none here."""
        deep -= 1
        choice = self.random.random()
        if choice < 0.2:
            return self.call(type_, deep) if self.left > 0 else None
        if choice < 0.26:
            parts = [self.value(type_, deep) for _ in range(2)]
            upcasts = f"({type_}) " if type_ not in ("int", "boolean", "String") else ""
            return f"({self.value('boolean', deep)} ? {upcasts}({parts[0]}) : {upcasts}({parts[1]}))"
        if choice < 0.5:
            found = self.places(type_, deep)
            return self.random.choice(found) if found else None
        maker = {"int": self.number, "boolean": self.truth, "String": self.text}.get(type_)
        if maker:
            return maker(deep)
        if type_ in ("Main", "Low"):
            return f"(({type_}) (Object) {self.value('Main', deep, False)})"
        return f"new {type_[:-2]}[{self.value('int', 0)} & 3]" if self.random.random() < 0.8 else None

    def number(self, deep):
        choice = self.random.random()
        if choice < 0.15:
            return f"({self.random.choice(['-', '~', '+'])} {self.value('int', deep)})"
        if choice < 0.25:
            return f"{self.value('int[]', deep, False)}.length"
        if choice < 0.3:
            return f"{self.value('String', deep)}.length()"
        operator = self.random.choice("+ - * / % & | ^ << >> >>>".split())
        return f"({self.value('int', deep)} {operator} {self.value('int', deep)})"

    def truth(self, deep):
        choice = self.random.random()
        if choice < 0.3:
            operator = self.random.choice("< <= > >= == !=".split())
            return f"({self.value('int', deep)} {operator} {self.value('int', deep)})"
        if choice < 0.6:
            operator = self.random.choice("&& || & | ^ == !=".split())
            return f"({self.value('boolean', deep)} {operator} {self.value('boolean', deep)})"
        if choice < 0.7:
            return f"!{self.value('boolean', deep)}"
        if choice < 0.8:
            return f"({self.value('String', deep)} == null)"
        if choice < 0.85:
            return f"{self.value('String', deep)}.equals({self.value('String', deep)})"
        left = f"((Object) {self.value('Main', deep, False)}"
        if choice < 0.95:
            return f"{left} instanceof {self.random.choice(CLASSES)})"
        return f"{left} == (Object) {self.value(self.random.choice(['Main', 'int[]']), deep, False)})"

    def text(self, deep):
        other = self.value(self.random.choice(["int", "boolean", "String"]), deep)
        parts = [self.value("String", deep), other]
        self.random.shuffle(parts)
        return f"({parts[0]} + {parts[1]})"

    def arguments(self, types, deep):
        return ", ".join(self.value(type_, deep) for type_ in types)

    def new(self, class_):
        self.creations += 1
        made = f"new {class_}({self.arguments(self.program.makers[class_], 0)})"
        self.creations -= 1
        return made

    def call(self, type_, deep):
        """A call with this result, or None where no method has it."""
        fitting = [
            method
            for method in self.program.methods[: self.calls]
            if method.result == type_ and (self.may_throw or not method.is_checked)
        ]
        if not fitting:
            return None
        self.left -= 1
        method = self.random.choice(fitting)
        call = f"{method.name()}({self.arguments(method.parameters, deep)})"
        if method.is_static:
            return self.random.choice(["", "Main.", "Low."]) + call
        if not self.is_static and self.random.random() < 0.4:
            return call if self.class_number == 0 or self.random.random() < 0.6 else f"super.{call}"
        return f"{self.object(deep)}.{call}"

    # statements

    def block(self, count, last=lambda: ""):
        """Statements in braces, the last as `last` makes it; what they declare is out of scope after the block."""
        depth = len(self.scope)
        self.nesting += 1
        inner = " ".join(self.statement() for _ in range(count))
        end = last()
        self.nesting -= 1
        del self.scope[depth:]
        return f"{{ {inner} {end} }}"

    def statement(self):
        choice = self.random.random()
        if self.nesting > 3 or choice < 0.55:
            return self.random.choice([self.local, self.assignment, self.update, self.print, self.print, self.effect])()
        if choice < 0.7:
            other = f" else {self.block(1)}" if self.random.random() < 0.4 else ""
            return f"if ({self.value('boolean', 2)}) {self.block(2)}{other}"
        if choice < 0.8:
            return self.jump()
        return self.loop() if choice < 0.88 else self.guarded()

    def local(self):
        return self.initialised(self.random.choice(TYPES), 2)

    def assignment(self):
        type_ = self.random.choice(TYPES)
        found = self.places(type_, 2)
        return f"{self.random.choice(found)} = {self.value(type_, 2)};" if found else ";"

    def update(self):
        type_ = self.random.choice(["int", "int", "boolean", "String"])
        found = self.places(type_, 2)
        if not found:
            return ";"
        place = self.random.choice(found)
        if type_ == "String":
            return f"{place} += {self.value(self.random.choice(['int', 'boolean', 'String']), 1)};"
        if type_ == "boolean":
            return f"{place} {self.random.choice(['&=', '|=', '^='])} {self.value('boolean', 2)};"
        if self.random.random() < 0.4:
            return self.random.choice([f"{place}++;", f"--{place};"])
        return f"{place} {self.random.choice('+= -= *= /= %= &= |= ^= <<= >>= >>>='.split())} {self.value('int', 2)};"

    def print(self):
        name = self.random.choice(["print", "println", "println"])
        return f"System.out.{name}({self.value(self.random.choice(['int', 'boolean', 'String']), 3)});"

    def effect(self):
        call = self.call(self.random.choice(TYPES + ["void"] * 8), 1) if self.left > 0 else None
        return f"{call};" if call else self.print()

    def jump(self):
        """A return, a throw, a break or a continue after an `if`."""
        ways = [f"throw new {UNCHECKED}({self.value('String', 1)});"]
        if self.may_throw:
            ways.append(f"throw new {CHECKED}({self.value('String', 1)});")
        if self.loops:
            ways += ["break;", "continue;"]
        if self.result == "void":
            ways.append("return;")
        elif self.result:
            ways.append(f"return {self.value(self.result, 2)};")
        return f"if ({self.value('boolean', 2)}) {{ {self.random.choice(ways)} }}"

    def throw_checked(self):
        return f"if ({self.value('boolean', 1)}) {{ throw new {CHECKED}({self.value('String', 1)}); }}"

    def loop(self):
        depth = len(self.scope)
        name = self.declare("int")
        if name is None or self.loops > 1:
            del self.scope[depth:]
            return self.print()
        self.counters.append(name)
        self.loops += 1
        turns = self.random.randint(1, 4)
        way = self.random.choice(["for", "while", "do"])
        if way == "for":
            made = f"for (int {name} = 0; {name} < {turns}; {name}++) {self.block(2)}"
        elif way == "while":
            made = f"{{ int {name} = 0; while ({name} < {turns}) {{ {name}++; {self.block(2)} }} }}"
        else:
            made = f"{{ int {name} = 0; do {{ {name}++; {self.block(2)} }} while ({name} < {turns}); }}"
        self.loops -= 1
        self.counters.pop()
        del self.scope[depth:]
        return made

    def guarded(self):
        """A `try` with catches, with a `finally`, or with both."""
        catches = self.catches() if self.random.random() < 0.8 else []
        outer = self.may_throw
        self.may_throw = outer or bool(set(catches) & {CHECKED, "Exception", "Throwable"})
        # javac wants a block to be able to throw the checked exception that is caught after it
        made = f"try {self.block(2, self.throw_checked) if CHECKED in catches else self.block(2)}"
        self.may_throw = outer
        caught = f"caught{self.nesting}"
        for class_ in catches:
            message = f"System.out.println({caught}.getMessage()); " if class_ in (UNCHECKED, CHECKED) else ""
            made += f" catch ({class_} {caught}) {{ {message}{self.block(2)} }}"
        if not catches or self.random.random() < 0.4:
            made += f" finally {self.block(2)}"
        return made

    def catches(self):
        """Classes to catch, none of them after one that is above it."""
        chosen = self.random.sample(CAUGHT, self.random.randint(1, 2))
        if len(chosen) == 2 and chosen[0] in ("Throwable", "Exception", "RuntimeException"):
            chosen.reverse()
        if len(chosen) == 2 and chosen[0] in ("Throwable", "Exception", "RuntimeException"):
            chosen.pop()
        return chosen


class Program:
    def __init__(self, random):
        self.random = random
        self.methods = [Method(random, number) for number in range(METHODS)]
        self.methods[0].is_checked = False
        self.makers = {class_: [random.choice(TYPES) for _ in range(random.randint(0, 2))] for class_ in CLASSES}

    def text(self):
        classes = [f"class {CHECKED} extends Exception {{ {CHECKED}(String message) {{ super(message); }} }}"]
        classes.append(f"class {UNCHECKED} extends RuntimeException {{ {UNCHECKED}(String m) {{ super(m); }} }}")
        classes += [self.class_(number) for number in range(len(CLASSES))]
        return "\n".join(classes) + "\n"

    def class_(self, number):
        members = [self.maker(number)]
        if number == 0:
            members += [self.constant(), "static String nothing() { return null; }"]
            members += [self.field(*field) for field in FIELDS.items()] + [self.main()]
        for method in self.methods:
            if number == 0 or not method.is_static and self.random.random() < 0.6:
                members.append(self.method(number, method))
        above = f" extends {CLASSES[number - 1]}" if number else ""
        return "\n    ".join([f"class {CLASSES[number]}{above} {{"] + members) + "\n}"

    def constant(self):
        numbers = [self.random.choice(NUMBERS) for _ in range(2)]
        return f'static final String TITLE = "of " + {numbers[0]} + ({numbers[1]} > 7);'

    def field(self, name, type_):
        # an initialiser must not make objects without end, so it calls nothing
        is_given = type_.endswith("[]") or self.random.random() < 0.4
        start = f" = {Body(self, 0, 0, True, False, None).value(type_, 1)}" if is_given else ""
        return f"{type_} {name}{start};"

    def maker(self, number):
        class_ = CLASSES[number]
        body = Body(self, 0, number, False, False, "void")
        names = [body.declare(type_) for type_ in self.makers[class_]]
        parameters = ", ".join(f"{type_} {name}" for type_, name in zip(self.makers[class_], names))
        above = ""
        if number:
            body.is_static = True  # no field is there before `super`
            above = f"super({body.arguments(self.makers[CLASSES[number - 1]], 1)}); "
            body.is_static = False
        first = self.methods[0]
        start = "this.next = this; " if number == 0 and self.random.random() < 0.8 else ""
        if self.random.random() < 0.5:
            start += f"{first.name()}({body.arguments(first.parameters, 1)}); "
        return f"{class_}({parameters}) {{ {above}{start}{body.block(2)} }}"

    def method(self, number, method):
        body = Body(self, method.number, number, method.is_static, method.is_checked, method.result)
        names = [body.declare(type_) for type_ in method.parameters]
        made = body.block(4)
        end = f" return {body.value(method.result, 2)};" if method.result != "void" else ""
        return f"{method.head(names)} {{ {made}{end} }}"

    def main(self):
        body = Body(self, METHODS, 0, True, True, "void")
        body.left = 12
        inner = " ".join(self.first(body) for _ in range(12))
        last = f"System.out.println(TITLE + {body.value('int', 1)});"
        return f"public static void main(String[] args) throws {CHECKED} {{ {inner} {last} }}"

    def first(self, body):
        """A statement of `main`; most go on after what they throw."""
        if self.random.random() < 0.05:
            return body.statement()
        return f"try {body.block(2)} catch (RuntimeException caught) {{ System.out.println(\"caught\"); }}"
