"""Files with less to write: what they make, by hand; that they are answered as what they make; and the places of what is refused."""

import os
import re
import time
from pathlib import Path

from itip.ask import unused
from itip.shorthand import made

from .test_ask import EXAMPLES, PATH, ROOT, Asks

# Ruzsa 1996, Tao 2010, Madiman, Marcus and Tetali 2012: the triangle inequality of sums in a group holds, doubling by the outer sum alone doesn't
RUZSA = """vars X, Y, Z, XY, YZ, XZ
given indep X; Y; Z
given sum XY of X, Y      # each of the three
given sum YZ of Y, Z
given sum XZ of X, Z
given sum XZ of XY, YZ
prove H(XZ) + H(Y) <= H(XY) + H(YZ)
prove H(X) <= H(XY)
prove 2 H(XZ) <= H(XY) + H(YZ)
"""
# Dougherty, Freiling and Zeger 2009: Ingleton's inequality where A and B have a common information
INGLETON = "vars A, B, C, D, Z\ngiven common Z of A, B\nprove I(A;B) <= I(A;B|C) + I(A;B|D) + I(C;D)\n"
FORMS = [
    ("given sum T of X, Y", ["given func T of X,Y", "given func X of T,Y", "given func Y of T,X"]),
    ("\tgiven  sum T of X,Y,Z  # a sum", ["given func T of X,Y,Z", "given func X of T,Y,Z", "given func Y of T,X,Z", "given func Z of T,X,Y"]),
    ("given common Z of X, Y", ["given func Z of X", "given func Z of Y", "given I(X;Y|Z) = 0"]),
    ("given common Z,T of X,T; Y", ["given func Z,T of X,T", "given func Z,T of Y", "given I(X,T;Y|Z,T) = 0"]),
    ("row R <= H(X), I(X;Y|Z)", ["row R <= H(X)", "row R <= I(X;Y|Z)"]),
    ("row H(X,Y), H(Z) <= R, 2 R", ["row H(X,Y) <= R", "row H(X,Y) <= 2 R", "row H(Z) <= R", "row H(Z) <= 2 R"]),
    ("given H(X) >= H(Y), H(Z)", ["given H(X) >= H(Y)", "given H(X) >= H(Z)"]),
    ("given H(X) = H(Y) = 0", ["given H(X) = H(Y)", "given H(Y) = 0"]),
    ("row 0 <= H(X|Y) <= R = H(Z)", ["row 0 <= H(X|Y)", "row H(X|Y) <= R", "row R = H(Z)"]),
    ("row R>=H(X,Y)=0", ["row R >= H(X,Y)", "row H(X,Y) = 0"]),
]
PLAIN = [
    "given func X,Y of Z", "given markov X,Y -> Z -> T", "given indep X,Y; Z", "given indep X; Y | Z,T", "row R <= I(X,Y;Z)", "given H(X,Y) = H(X)",
    "given H(X) <= H(Y) >= 0", "given H(X) = 0, H(Y) = 0", "given H(X) == H(Y)", "row R <= ,H(X)", "row R <= H(X),", "row R <= H(X) <=", "row = = 0",
    "given sum T", "given sum T of", "given sum T of X,,Y", "given sum T, X of Y", "given sum T = X + Y", "given sum of X", "given common Z of X",
    "given common Z of X, Y, T", "given common Z of X; Y; T", "given common of X, Y", "given commons", "row", "given",
]  # fmt: skip
HEAD = "vars X, Y, Z, T\nrates R\n"


class Shorthand(Asks):
    def asked(self, text):
        """What the program is asked, byte for byte."""
        note = Path(self.file(""))
        slow = self.program(f"data = sys.stdin.buffer.read()\nopen({str(note)!r}, 'wb').write(data)\nsys.exit(3 * (not print('refused long')))\n")
        self.assertEqual(self.ask(self.file(text), prover=slow.prover)[:2], (3, "refused long\n"))
        return note.read_bytes()

    def test_forms(self):
        for line, lines in FORMS:
            text = f"{HEAD}{line}\nprove R >= 0\n"
            due = f"{HEAD}{''.join(one + chr(10) for one in lines)}prove R >= 0\n"
            self.assertEqual(made(text).text, due)
            path = self.file(text)
            self.assertEqual(self.ask("--made", path), (0, due, ""))
            self.assertEqual(self.asked(text), due.encode())
            self.assertEqual(self.ask(path)[:2], self.ask(self.file(due))[:2])
            self.assertEqual(made(due).text, due)

    def test_plain(self):
        """What is a line of question files already, or none of both, stays as it is."""
        for line in PLAIN:
            text = f"{HEAD}{line}\nprove R >= 0\n"
            self.assertEqual((made(text).text, made(text).lines), (text, ()), line)
        for text in ["", "\n", "vars X", "#\xff\nvars X # sum\r\nprove H(X) >= 0", "prove H(X) >= 0\nprove H(X) >= 0\n", "vars X\nprove H(X) >= 0\ngiven H(X) = 0\n", "vars X, Y\nprove 0 <= H(X) <= H(Y)\n"]:
            self.assertEqual(made(text).text, text)
        contained = "vars X\nrates R\nregion\nrow R <= H(X)\nregion\nrow R <= 2 H(X)\ncontain\n"
        for text in [contained, f"{contained}prove R >= 0\n", f"vars X\nprove H(X) >= 0\n{contained.partition(chr(10))[2]}"]:
            self.assertEqual(made(text).text, text)

    def test_examples(self):
        """Every question file goes to the program byte for byte; those of examples/papers are for `./ask`, some with less to write."""
        paths = [path for path in EXAMPLES.rglob("*.txt") if not {"less", "papers"} & set(path.parts)]
        self.assertGreater(len(paths), 50)
        for path in paths:
            text = os.fsdecode(path.read_bytes())
            self.assertEqual((made(text).text, made(text).lines), (text, ()), path)
        text = b"vars X # \xe9\xff\r\n\t prove H(X) >= 0 # no end"
        self.assertEqual(self.asked(text), text)
        self.assertEqual(self.ask("--made", str(EXAMPLES / "butterfly.txt"))[1], (EXAMPLES / "butterfly.txt").read_text())

    def test_questions_under_one_head(self):
        text = "vars X, Y # two\nrates R\n# what is asked\nrow R >= H(X)\r\nprove R >= 0 # one\n\nrow H(Y) <= R\nprove R >= H(Y)\neliminate R\nvars X\nprove H(X) >= 0"
        due = (
            "vars X, Y # two\nrates R\n# what is asked\nrow R >= H(X)\r\nprove R >= 0 # one\n\nvars X, Y\nrates R\nrow R >= H(X)\nrow H(Y) <= R\nprove R >= H(Y)\n"
            "vars X, Y\nrates R\nrow R >= H(X)\nrow H(Y) <= R\neliminate R\nvars X\nprove H(X) >= 0"
        )
        self.assertEqual(made(text).text, due)
        self.assertEqual([line for line in self.asks(text) if line[0] != " "], ["1 yes", "2 yes", "3 region 0", "4 yes"])

    def test_literature(self):
        self.assertEqual([line for line in self.asks(RUZSA) if line[0] != " "], ["1 yes", "2 yes", "3 no"])
        self.assertEqual(self.asks(INGLETON)[0], "1 yes")
        self.assertEqual(self.asks(INGLETON.replace("given", "# given").replace(", Z", ""))[0], "1 no")

    def test_modes(self):
        """Questions below a head of copies, and for factors, may be written so too; a sharing file has none of this."""
        self.assertEqual(self.ask("--best", self.file("vars X, Y\nprove H(X) + H(Y) >= H(X,Y)\nprove H(X,Y) >= H(X)\n"))[1].count("best 1/1"), 2)
        text = "copy R of A over C, D\nvars A, B, C, D\nprove 2 I(C;D) <= I(A;B) + I(A;C,D) + 3 I(C;D|A) + I(C;D|B)\nprove H(A) >= 0\n"
        self.assertEqual([line for line in self.ask(self.file(text))[1].splitlines() if line[0] != " "], ["1 yes", "2 yes"])
        twice = f"{PATH}prove H(b) >= H(s)\nprove H(c) >= H(s)\n"
        self.assertEqual(self.ask(self.file(twice))[:2], (3, "refused 7:1 word\n"))

    def test_refused(self):
        """A refusal has the place at which it was written, and shows that line."""
        for text, refusal, line in [
            (f"{HEAD}given H(X) = H(Y) = 0\nrow H(X) <= H(Y),  H(Q)\nprove R >= 0\n", "refused 4:22 name", "row H(X) <= H(Y),  H(Q)"),
            (f"{HEAD}given sum X of Y, W\nprove R >= 0\n", "refused 3:19 name", "given sum X of Y, W"),
            (f"{HEAD}given common W of X, Y\nprove R >= 0\n", "refused 3:14 name", "given common W of X, Y"),
            (f"{HEAD}given common Z of X, W\nprove R >= 0\n", "refused 3:22 name", "given common Z of X, W"),
            (f"{HEAD}prove R >= 0\nprove S >= 0\n", "refused 4:7 name", "prove S >= 0"),
            (f"{HEAD}prove R >= 0\nprove R >=\n", "refused 4:11 word", "prove R >="),
            (f"{HEAD}prove R >= 0\ngiven func X of W\nprove R >= 0\n", "refused 4:17 name", "given func X of W"),
            (f"{HEAD}given H(X) = H(Y) = H(Z\nprove R >= 0\n", "refused 3:24 word", "given H(X) = H(Y) = H(Z"),
            (f"{HEAD}given R = H(Y) = H(Z)\nprove R >= 0\n", "refused 3:7 name", "given R = H(Y) = H(Z)"),
            (f"{HEAD}given H(X) = H(Y) = 0\nprove R >= 0\ngiven H(X) = 0\n", "refused 5:1 word", "given H(X) = 0"),
            (f"{HEAD}prove R >= 0\nprove R >= 0\nvars X", "refused 6:1 unfinished", None),
            ("vars X, X\nprove H(X) >= 0\nprove H(X) >= 0\n", "refused 1:9 twice", "vars X, X"),
            (HEAD + "row R >= H(X), H(Y)\n" * 33 + "prove R >= 0\n", "refused 35:1 many", "row R >= H(X), H(Y)"),
        ]:
            path = self.file(text)
            status, told, said = self.ask(path)
            self.assertEqual((status, told), (3, refusal + "\n"), text)
            number, column = map(int, refusal.split()[1].split(":"))
            shown = f"    {line}\n    {' ' * (column - 1)}^\n" if line is not None else ""
            self.assertTrue(said.startswith(f"ask: {path}, line {number}, column {column}:\n{shown}    "), said)

    def test_places(self):
        """A byte that begins no token is refused where it stands, at each place of each relation."""
        lines = [HEAD.rstrip("\n"), "given H(X) = H(Y) = 0", "row R <= H(X,Y), I(X;Z|T)  ,R # what follows", "prove R >= 0", "prove R <= H(X)"]
        text = "\n".join(lines) + "\n"
        self.assertEqual(self.ask(self.file(text))[0], 0)
        written = text.split("\n")
        for number, line in enumerate(written, 1):
            begin = len(re.match("[a-z]*", line)[0])
            for column in range(begin, len(line.partition("#")[0])):
                if number == 3 or (number > 3 and line[column] in "(,;|) RHIXYZT"):
                    faulty = [*written[: number - 1], f"{line[:column]}${line[column + 1 :]}", *written[number:]]
                    place = self.refusal("\n".join(faulty))
                    self.assertEqual(place, (number, column + 1), "\n".join(faulty))

    def refusal(self, text):
        """The place of a refusal, by the program's own and `place`."""
        from itip import Refused
        from itip.program import default

        file = made(text)
        try:
            default().itip(["answer"], file.text)
        except Refused as fault:
            return file.place(fault.line, fault.column)
        return None

    def test_long(self):
        text = "vars X\n" + "given H(X) >= 0 " + "# " + "x" * 500_000 + "\n" + "prove H(X) >= 0\n" * 900
        self.assertEqual(self.ask(self.file(text))[0], 0)
        text = "vars X\n" + f"given {' + '.join(['H(X)'] * 250)} >= 0\n" + "prove H(X) >= 0\n" * 900
        path = self.file(text)
        self.assertEqual(self.ask(path), (3, "refused long\n", f"ask: {path} makes more than 1048576 bytes\n"))

    def test_large(self):
        """However much a file would make, little of it is made."""
        begin = time.process_time()
        many = ", ".join(["H(X)"] * 60_000)
        for text, due in [
            (f"vars X\nrow {many} <= {many}\nprove H(X) >= 0\n", "refused 2:1 many"),
            ("vars X\nrow " + ", ".join(["H(X)"] * 9) + " <= " + ", ".join(["H(X)"] * 8) + "\nprove H(X) >= 0\n", "refused 2:1 many"),
            (f"vars X\nrow {' <= '.join(['H(X)'] * 70_000)}\nprove H(X) >= 0\n", "refused 2:1 many"),
            (f"vars X\ngiven sum {'X of '}{','.join(['X'] * 60_000)}\nprove H(X) >= 0\n", "refused long"),
            (f"vars X\n#{'x' * 300_000}\nrow H(X) >= {' + '.join(['H(X)'] * 30_000)}\n" + "prove H(X) >= 0\n" * 30_000, "refused long"),
            ("vars X\n" + "prove H(X) >= 0\n" * 1001, "refused 1002:1 many"),
            ("vars X\nprove H(X) >= 0\n" * 40_000, "refused 2001:1 many"),
        ]:
            self.assertEqual(self.ask(self.file(text))[:2], (3, f"{due}\n"), text[:50])
        self.assertLess(time.process_time() - begin, 20)

    def test_unused(self):
        """A variable is unused where no question under its head names it; the first of them is told."""
        self.assertEqual(list(unused("vars X, Y, Z\nprove H(X) >= 0\nprove H(Y) >= 0\nvars X, Y\nprove H(X) >= 0\n")), [(1, "Z"), (3, "Y")])

    def test_page(self):
        """What docs/guide/ask.md shows of it is what is made."""
        page = (ROOT / "docs" / "guide" / "ask.md").read_text()
        section = page.partition("## Less to write\n")[2].partition("\n## ")[0]
        rows = re.findall(r"(?m)^\| `((?:given|row) .*?)` \| (`.*`) \|$", section)
        self.assertEqual(len(rows), 5)
        for line, lines in rows:
            due = [one.replace("\\|", "|") for one in re.findall("`(.*?)`", lines)]
            text = f"vars X, Y, T, A, B, C, D, Z\nrates R\n{line}\nprove 0 >= 0\n"
            self.assertEqual(made(text).text.splitlines()[2:-1], due)
        (shown,) = re.findall("(?s)```\n(.*?)```", section)
        self.assertEqual([line for line in self.asks(shown) if line[0] != " "], ["1 yes", "2 no"])
