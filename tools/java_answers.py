"""What java and javac answer to programs. One Java machine compiles all of them, each in a folder of its own as Main.java,
and runs those that are to be run.

Needs javac and java, 17 or later.
"""
import os
import re
import subprocess

# For each line of the file that is named, `FOLDER`, `compile`, or `FOLDER`, `run`, the class of `main` and arguments, with
# tabs between them: compiles the program of that folder, with what javac says in the file `javac`. Where javac accepts it,
# the file `out` has what the program prints, and `ending` how it ends, if by an exception.
EACH = r"""
import java.io.File;
import java.io.PrintStream;
import java.lang.reflect.InvocationTargetException;
import java.lang.reflect.Method;
import java.net.URL;
import java.net.URLClassLoader;
import java.nio.file.Files;
import java.util.Arrays;
import java.util.Set;
import javax.tools.JavaCompiler;
import javax.tools.ToolProvider;

class Each {
    // exceptions that a run makes itself: their messages are Java's own
    static final Set<String> MADE = Set.of("ArithmeticException", "NullPointerException", "NegativeArraySizeException",
            "ClassCastException", "ArrayStoreException", "ArrayIndexOutOfBoundsException");

    static String ending(Throwable thrown) {
        String name = thrown.getClass().getName();
        String plain = name.startsWith("java.lang.") ? name.substring("java.lang.".length()) : name;
        String message = MADE.contains(plain) ? null : thrown.getMessage();
        if (message == null) {
            return "uncaught " + plain;
        }
        return "uncaught " + plain + ": " + message.replace("\\", "\\\\").replace("\n", "\\n").replace("\r", "\\r");
    }

    static void run(File folder, String mainClass, String[] words) throws Exception {
        try (URLClassLoader loader = new URLClassLoader(new URL[] {folder.toURI().toURL()}, null);
                PrintStream out = new PrintStream(new File(folder, "out"), "UTF-8")) {
            Method main = loader.loadClass(mainClass).getDeclaredMethod("main", String[].class);
            main.setAccessible(true);
            System.setOut(out);
            try {
                main.invoke(null, (Object) words);
            } catch (InvocationTargetException e) {
                Files.writeString(new File(folder, "ending").toPath(), ending(e.getCause()) + "\n");
            }
        }
    }

    public static void main(String[] args) throws Exception {
        JavaCompiler javac = ToolProvider.getSystemJavaCompiler();
        for (String line : Files.readAllLines(new File(args[0]).toPath())) {
            String[] words = line.split("\t", -1);
            File folder = new File(words[0]);
            int status;
            try (PrintStream said = new PrintStream(new File(folder, "javac"), "UTF-8")) {
                status = javac.run(null, said, said, "-encoding", "UTF-8", "-nowarn", "-Xlint:none", "-d", words[0],
                        words[0] + "/Main.java");
            }
            if (status != 0) {
                continue;
            }
            if (words[1].equals("run")) {
                run(folder, words[2], Arrays.copyOfRange(words, 3, words.length));
            } else {
                Files.createFile(new File(folder, "out").toPath());
            }
        }
    }
}
"""


class Answer:
    """What java answers to one program: whether javac accepts it, what it prints, and how it ends where by an exception."""

    def __init__(self, folder):
        self.folder = folder
        self.is_accepted = os.path.exists(os.path.join(folder, "out"))
        self.out = _bytes_of(folder, "out")
        self.ending = _bytes_of(folder, "ending")


def _bytes_of(folder, name):
    path = os.path.join(folder, name)
    if not os.path.exists(path):
        return b""
    with open(path, "rb") as file:
        return file.read()


def _main_class(source):
    """The class in which the first `main` stands."""
    before = source.partition(b"static void main(")[0]
    return re.findall(rb"\bclass (\w+)", before)[-1].decode()


def ask(room, programs):
    """The answers to programs, each a name, the bytes of its source, and its arguments, or None where it isn't to be run.
    `room` is an empty folder; each program has one of its name there."""
    lines = []
    for name, source, words in programs:
        folder = os.path.join(room, name)
        os.mkdir(folder)
        with open(os.path.join(folder, "Main.java"), "wb") as out:
            out.write(source)
        how = ["compile"] if words is None else ["run", _main_class(source)] + words
        lines.append("\t".join([folder] + how))
    each, asked = os.path.join(room, "Each.java"), os.path.join(room, "asked")
    with open(each, "w", encoding="utf-8") as out:
        out.write(EACH)
    with open(asked, "w", encoding="utf-8") as out:
        out.writelines(line + "\n" for line in lines)
    subprocess.run(["nice", "-n", "10", "java", "-Dfile.encoding=UTF-8", each, asked], check=True)
    return [Answer(os.path.join(room, name)) for name, _, _ in programs]
