"""The desk of the author of rules (docs/desk.md): expansions with their places, each fault with its sentence, checks and
suites by the real program, and drawings, whose parser is tried against the program's."""

import contextlib
import io
import os
import subprocess
import tempfile
import unittest
from unittest import mock
from xml.etree import ElementTree

from ixm.desk import main, program
from ixm.desk.drawing import LETTER, TITLES, draw
from ixm.desk.forms import Form, parse
from ixm.desk.parts import expand
from ixm.desk.texts import place
from ixm.trials import built

TOP = os.path.join(os.path.dirname(os.path.abspath(__file__)), "..", "..")
EXAMPLE = os.path.join(TOP, "examples", "desk")


def nested(count: int) -> str:
    """So many parts, of which each uses the one before."""
    return "".join(f"let v{number} = {f'v{number - 1}' if number else 'a'};\n" for number in range(count))


# A source, and what it expands to.
EXPANSIONS = [
    ("a", "a"),
    ("a-b", "a-b"),
    (" a // one\n\n - b /* two\n three */\n", "a - b"),
    ("a/**/b", "a b"),
    ("*//\na", "* a"),
    ("let v = a - b; v", "(a - b)"),
    ("let v = a;let w=v-b;\n*w", "*((a)-b)"),
    ("let visit($p,$s) = begin($p,$s) - finish($p,$s);\nall $p visit($p,xray)",
     "all $p (begin($p,xray) - finish($p,xray))"),
    ("let v($p) = any $x a($p,$x); all $y v($y) @ v(anna)", "all $y (any $x a($y,$x)) @ (any $x a(anna,$x))"),
    ("let v($x) = a($x); let w($y) = v($y) - v(one); any $z w($z)", "any $z ((a($z)) - (a(one)))"),
    ("let some($n) = times $n a; some(3)", "(times 3 a)"),
    ("let some($n) = times$n(a); some(3)", "(times 3(a))"),
    ("let v = a; b(v) - v", "b(v) - (a)"),
    ("let v = a(let); v | b(let)", "(a(let)) | b(let)"),
    ("let v = a | b; let unused = c; v - v", "(a | b) - (a | b)"),
    ("let v($p) = a($p); v(any)", "(a(any))"),
]

# A source, a piece of what it expands to, and the line and the column of that in the source.
PLACES = [
    ("a -\n  b", "b", (2, 3)),
    ("/* one\n*/ a", "a", (2, 4)),
    ("let v($p) =\n  begin($p);\n\nv(xray) - c", "begin", (2, 3)),
    ("let v($p) =\n  begin($p);\n\nv(xray) - c", "xray", (4, 3)),
    ("let v($p) =\n  begin($p);\n\nv(xray) - c", "egin", (2, 4)),
    ("let v($p) =\n  begin($p);\n\nv(xray) - c", "(begin", (4, 1)),
    ("let v($p) =\n  begin($p);\n\nv(xray) - c", ") - c", (2, 12)),
    ("let v($p) =\n  begin($p);\n\nv(xray) - c", "c", (4, 11)),
    ("let v($p) = a($p);\nlet w($q) =\n v($q);\nw(b1)", "b1", (4, 3)),
    ("/* ä */ ä - b", "b", (1, 13)),
]

# Texts of parts that the desk itself refuses.
FAULTS = [
    ("a - /* b", "1:5: this comment is never closed"),
    ("a\n/*/", "2:1: this comment is never closed"),
    ("let = a; a", "1:5: after let comes the name of a part, which begins with a letter"),
    ("let 1v = a; a", "1:5: after let comes the name of a part, which begins with a letter"),
    ("let", "1:4: after let comes the name of a part, which begins with a letter"),
    ("let any = a; a", "1:5: any is a word of the language, so no part has this name"),
    ("let let = a; a", "1:5: let is a word of the language, so no part has this name"),
    (f"let {'v' * 33} = a; a", "1:5: a name has at most 32 characters"),
    ("let v = a;\nlet v = b; v", "2:5: there is a part v already"),
    ("let v() = a; v", "1:7: here a parameter has to come, such as $p"),
    ("let v(p) = a; v", "1:7: here a parameter has to come, such as $p"),
    ("let v($p,) = a; v", "1:10: here a parameter has to come, such as $p"),
    ("let v($p = a; v", "1:10: the parameters of a part are written as ($p,$q)"),
    ("let v($p,$p) = a; v", "1:10: $p is named twice"),
    ("let v a; v", "1:7: here = has to come, and then the text of v"),
    ("let v", "1:6: here = has to come, and then the text of v"),
    ("let v = a", "1:1: the part v isn't ended by ;"),
    ("let v = a\nlet w = b; w", "1:1: the part v isn't ended by ;"),
    ("let v = ; v", "1:9: the part v is empty"),
    ("let v = (a; v", "1:9: this ( is never closed"),
    ("let v = a); v", "1:10: this ) closes nothing"),
    ("let v($p) = any $p a($p); v(x)", "1:17: $p is a parameter of v, so any can't bind it"),
    ("let v = a($p); all $p v", "1:11: $p is no parameter of v, and nothing in it binds it"),
    ("let v($p) = $p - a; v(b)", "1:13: $p can't stand here: only among values, or after times"),
    ("let v = u; let u = a; v", "1:9: a part uses only parts above it, and u isn't above"),
    ("let v = a - v; v", "1:13: a part uses only parts above it, and v isn't above"),
    ("let v($p) = a($p); v", "1:20: the part v has 1 parameter, and here it is given 0"),
    ("let v = a;\nb - v(c)", "2:5: the part v has 0 parameters, and here it is given 1"),
    ("let v($p,$q) = a($p); let w = v(x); b", "1:31: the part v has 2 parameters, and here it is given 1"),
    ("let v($p) = a($p); v(a b)", "1:24: the values of v are written as (xray,$p)"),
    ("let v($p) = a($p); v(x", "1:23: the values of v are written as (xray,$p)"),
    ("let v($p) = a($p); v(x,)", "1:24: here a value or a parameter has to come"),
    ("let v($p) = a($p); v(", "1:22: here a value or a parameter has to come"),
    ("let v($p) = any $x a($p,$x); all $x v($x)", "1:39: the part v binds $x itself, so it can't be given $x"),
    ("let v($p) = any $x a($p,$x); let w($q) = v($q); w($x)", "1:51: the part v binds $x itself, so it can't be given $x"),
    ("a - let v = b; v", "1:5: parts come before the expression"),
    ("a = b", "1:3: this = belongs to no part"),
    ("a;", "1:2: this ; belongs to no part"),
    ("a - " * 4096 + "b", "1:16385: with this the expanded text has more than 16384 bytes"),
    (nested(65) + "v64", "2:10: this part is used inside 64 others"),
]

# Texts that the program refuses.
REFUSED = [
    ("/* ä */ ä - b", "1:9: nothing of the language begins with this"),
    ("a - b\n  c", "2:3: this can't stand here"),
    ("a -\n// the end\n", "1:4: the text ends here, and something is missing"),
    ("", "1:1: the text ends here, and something is missing"),
    ("let v = b -;\na - v", "1:12: this can't stand here"),
    ("let v($q) = a($q);\nb -\nv($q)", "1:13: nothing binds a parameter of this action"),
    ("let v = any $p a($p);\nall $p v", "1:9: this binds a parameter that is bound around it already"),
    ("let v = a;\nall $p v", "1:9: an all is around this action, and the action doesn't name its parameter"),
    (" + ".join("a" * 300), "1:1025: this is one more than 512 actions, operators and quantifiers"),
    ("?" * 65 + "a", "1:65: this is inside too many others"),
    ("let v($p) = a(1,2,3,4,$p); v(5)", "1:22: an action has at most four values"),
    (f"let v($p) = a($p);\nv({'x' * 33})", "2:3: a name or a value has at most 32 characters"),
    ("a - any b", "1:5: after any, every, sync and all comes a parameter, and after times a number"),
    ("".join(f"any $p{n} " for n in range(9)) + "a", "1:65: this quantifier is inside eight others"),
    ("let some($n) = times $n a;\nsome(1)", "2:6: after times comes a number from 2 to 64, without leading zeros"),
]


def run(*words: str) -> tuple[int, str, str]:
    """The status of the command, and what it put on standard output and on standard error."""
    with contextlib.redirect_stdout(io.StringIO()) as put, contextlib.redirect_stderr(io.StringIO()) as errors:
        status = main.main(list(words))
    return status, put.getvalue(), errors.getvalue()


class Case(unittest.TestCase):
    """A test with a folder, and with the program in place."""

    def setUp(self) -> None:
        stack = contextlib.ExitStack()
        self.addCleanup(stack.close)
        self.folder = stack.enter_context(tempfile.TemporaryDirectory())
        stack.enter_context(mock.patch.dict(os.environ, IXM=built()))

    def file(self, text: str, name: str = "rules") -> str:
        path = f"{self.folder}/{name}"
        with open(path, "w", encoding="utf-8") as file:
            file.write(text)
        return path


class TestExpand(Case):
    def test_expansions(self) -> None:
        for source, text in EXPANSIONS:
            with self.subTest(source):
                self.assertEqual(run("expand", self.file(source)), (0, text + "\n", ""))

    def test_the_program_takes_what_is_expanded(self) -> None:
        for source, text in EXPANSIONS:
            if text != "a b":
                with self.subTest(source):
                    self.assertEqual(run("check", self.file(source)), (0, "", ""))

    def test_places(self) -> None:
        for source, piece, where in PLACES:
            with self.subTest(source, piece=piece):
                expanded = expand(source)
                byte = len(expanded.text[: expanded.text.index(piece)].encode())
                self.assertEqual(place(source, expanded.source(byte)), where)
                self.assertEqual(len(expanded.places), len(expanded.text.encode()) + 1)

    def test_faults(self) -> None:
        for source, sentence in FAULTS:
            with self.subTest(source):
                path = self.file(source)
                for command in ("expand", "check"):
                    self.assertEqual(run(command, path), (1, "", f"{path}:{sentence}\n"))

    def test_a_comment_changes_nothing(self) -> None:
        bare, commented = "let v = a - b;\nv | c", "let // one\nv = a /* two */ -/**/b\n// three\n; v\n|\n\nc"
        self.assertEqual(expand(bare).text, "(a - b) | c")
        self.assertEqual(expand(commented).text, "(a - b) | c")

    def test_parts_inside_64_others(self) -> None:
        source = nested(64) + "v63"
        self.assertEqual(expand(source).text, "(" * 64 + "a" + ")" * 64)
        self.assertEqual(run("check", self.file(source)), (0, "", ""))


class TestCheck(Case):
    def test_refused_by_the_program(self) -> None:
        for source, sentence in REFUSED:
            with self.subTest(source):
                path = self.file(source)
                self.assertEqual(run("check", path), (1, "", f"{path}:{sentence}\n"))

    def test_files_and_words(self) -> None:
        with open(f"{self.folder}/bytes", "wb") as file:
            file.write(b"a // \xc3\xa4\n- \xff")
        path = f"{self.folder}/bytes"
        self.assertEqual(run("check", path), (2, "", f"ixm-desk: {path}:2:3: from here on this is no UTF-8\n"))
        self.assertEqual(run("check", f"{path}s"), (2, "", f"ixm-desk: {path}s: No such file or directory\n"))
        self.assertEqual(run(f"{path}s", path), (2, "", f"ixm-desk: {path}s: No such file or directory\n"))
        for words in ((), ("check",), ("check", path, path), ("test", path)):
            with self.subTest(words), self.assertRaises(SystemExit) as ended:
                run(*words)
            self.assertEqual(ended.exception.code, 2)

    def test_a_program_that_is_none(self) -> None:
        path = self.file("a")
        with mock.patch.dict(os.environ, IXM="/dev/null"):
            self.assertEqual(run("check", path), (2, "", "ixm-desk: /dev/null can't be run: Permission denied\n"))
        with mock.patch.dict(os.environ, IXM="/bin/false"):
            self.assertEqual(run("check", path), (2, "", "ixm-desk: /bin/false ended with status 1 and the line: \n"))
        with mock.patch.dict(os.environ, IXM="", PATH=self.folder):
            sentence = "ixm-desk: there is no program ixm on the path, and IXM isn't set\n"
            self.assertEqual(run("check", path), (2, "", sentence))

    def test_each_code_has_its_sentence(self) -> None:
        told = {sentence.partition(": ")[2] for _, sentence in REFUSED}
        # The desk itself refuses a longer text, and a state that is too large is played below.
        self.assertEqual(set(program.SENTENCES.values()) - told, {program.SENTENCES[1], program.SENTENCES[14]})

    def test_a_state_that_is_too_large(self) -> None:
        path, played = self.file("\n  a"), self.file("#!/bin/sh\necho refused expression 14 large 100000\nexit 3\n", "played")
        os.chmod(played, 0o755)
        with mock.patch.dict(os.environ, IXM=played):
            line = f"{path}:2:3: before any action the state is larger than the limit of nodes\n"
            self.assertEqual(run("check", path), (1, "", line))


# Cases under `*(open - close)`, what is put for them, and the counts.
SUITES = [
    ("pass one\n  open\n  close\n  open\n", "", (1, 1, 0)),
    ("complete none\n\n// a remark\ncomplete one\n\topen\n\tclose\n", "", (2, 2, 0)),
    ("refused one\n  open\n  open\n", "", (1, 1, 0)),
    ("pass one\n  open\n\n  open\n  close\n", "1: pass one: open in line 4 came as no, and not as yes", (1, 0, 1)),
    ("complete one\n  close\n", "1: complete one: close in line 2 came as no, and not as yes", (1, 0, 1)),
    ("pass a\n  open\ncomplete b b\n  open\n", "3: complete b b: after its actions something is still open", (2, 1, 1)),
    ("refused one\n  open\n  close\n", "1: refused one: close in line 3 came as yes, and not as no", (1, 0, 1)),
    ("refused one\n  close\n  open\n  open", "1: refused one: close in line 2 came as no, and not as yes", (1, 0, 1)),
]

# Suites that aren't well formed, under the same rules.
FAULTY_SUITES = [
    ("", "1:1: there is no case"),
    ("// none\n", "1:1: there is no case"),
    ("pass\n  open\n", "1:1: a case begins with pass, complete or refused, and its name"),
    ("pass one\n  open\nopen\n", "3:1: a case begins with pass, complete or refused, and its name"),
    ("\n  open\n", "2:3: this action is before the first case"),
    ("pass one\n  open\nrefused one\n  close\n", "3:1: there is a case one already"),
    ("pass one\npass two\n  open\n", "1:1: a case of the kind pass has at least one action"),
    ("refused one\n", "1:1: a case of the kind refused has at least one action"),
    ("pass one\n  open\n\n  close close\n", "4:3: close close is no action"),
]


class TestSuites(Case):
    def test_suites(self) -> None:
        rules = self.file("let visit = open - close; // of a door\n*visit")
        for text, line, (count, right, wrong) in SUITES:
            with self.subTest(text):
                suite = self.file(text, "cases")
                put = f"{suite}:{line}\n" * bool(line) + f"cases {count}, right {right}, wrong {wrong}\n"
                self.assertEqual(run("test", rules, suite), (1 if wrong else 0, put, ""))

    def test_faulty_suites(self) -> None:
        rules = self.file("*(open - close)")
        for text, sentence in FAULTY_SUITES:
            with self.subTest(text):
                suite = self.file(text, "cases")
                self.assertEqual(run("test", rules, suite), (2, "", f"{suite}:{sentence}\n"))

    def test_faulty_rules(self) -> None:
        suite = self.file("pass one\n  open\n", "cases")
        for source, sentence in (("*(open -\n", "1:9: the text ends here, and something is missing"),
                                 ("let = a; b", "1:5: after let comes the name of a part, which begins with a letter")):
            rules = self.file(source)
            self.assertEqual(run("test", rules, suite), (2, "", f"{rules}:{sentence}\n"))

    def test_the_example(self) -> None:
        put = run("test", f"{EXAMPLE}/rules", f"{EXAMPLE}/rules.cases")
        self.assertEqual(put, (0, "cases 7, right 7, wrong 0\n", ""))

    def test_the_example_with_a_rule_less(self) -> None:
        with open(f"{EXAMPLE}/rules") as file:
            less = file.read().replace("@ all $x *(any $p visit($p,$x))", "")
        status, put, _ = run("test", self.file(less), f"{EXAMPLE}/rules.cases")
        line = "refused two patients in one room: call(ben,xray) in line 20 came as yes, and not as no"
        self.assertEqual((status, put), (1, f"{EXAMPLE}/rules.cases:18: {line}\ncases 7, right 6, wrong 1\n"))

    def test_as_a_process(self) -> None:
        words = ["python3", "-m", "ixm.desk", "test", f"{EXAMPLE}/rules", f"{EXAMPLE}/rules.cases"]
        ended = subprocess.run(words, cwd=f"{TOP}/python", capture_output=True, text=True)
        self.assertEqual((ended.returncode, ended.stdout), (0, "cases 7, right 7, wrong 0\n"))


SVG = "{http://www.w3.org/2000/svg}"
KEPT = os.path.join(TOP, "docs", "desk")
HOUSES = {"hospital": "hospital/expression", "signatures": "signatures/expression", "nurses": "nurses/expression",
          "department": "desk/rules"}
FORMS = [
    "((a)) - (b)", "a - (b - c)", "a - b - c", "(a | b) & c @ d + e - f", "?(*a) | #(b - c)", "? * # a", "*(a | b)",
    "times 2 ((a))", "any $x times 3 ?a(1,$x) | b", "any $x every $y sync $z (a($x,$y,$z) - b)", "all $p (a($p) + b($p))",
    "any $x (a | a($x)) - b", "let_go(any,times)", "a & (b | c) & d", "(a @ b) @ (c @ d)", "any$x(a($x))",
]


def expressions() -> list[str]:
    """The expressions of all examples, and some more of each form."""
    found = []
    for folder in sorted(os.listdir(f"{TOP}/examples")):
        path = f"{TOP}/examples/{folder}/expression"
        if os.path.exists(path):
            with open(path) as file:
                found.append(file.read())
    return found + FORMS


class TestDrawings(Case):
    def simplified(self, text: str) -> str:
        words = [program.path(), "simplify", self.file(text)]
        return subprocess.run(words, stdout=subprocess.PIPE, text=True).stdout

    def test_the_program_reads_the_same_form(self) -> None:
        texts = expressions()
        self.assertGreater(len(texts), len(FORMS) + 15)
        for text in texts:
            with self.subTest(text):
                wanted = self.simplified(text)
                self.assertNotIn("refused", wanted)
                self.assertEqual(self.simplified(parse(text).text()), wanted)
                self.assertEqual(parse(wanted).text() + "\n", wanted)

    def test_faults(self) -> None:
        for text, where in (("a -", "1:4"), ("a b", "1:3"), ("let v = a -;\n\n v", "1:12"), ("any b", "1:5"),
                            ("times a", "1:7"), ("a(b", "1:4"), ("a()", "1:3"), ("(a", "1:3"), ("a)", "1:2"),
                            ("?" * 65 + "a", "1:66"), ("", "1:1")):
            with self.subTest(text):
                path = self.file(text)
                self.assertEqual(run("draw", path), (1, "", f"{path}:{where}: the drawing can't read on here\n"))

    def test_each_operator_is_drawn(self) -> None:
        for text, title in (("a - b", "-"), ("a | b", "|"), ("a & b", "&"), ("a @ b", "@"), ("a + b", "+"),
                            ("?a", "?"), ("*a", "*"), ("#a", "#"), ("any $p a", "any"), ("every $p a", "every"),
                            ("sync $p a", "sync"), ("all $p a", "all"), ("times 2 a", "times")):
            with self.subTest(text):
                found = ElementTree.fromstring(draw(parse(text)))
                titles = [element.text or "" for element in found.iter(f"{SVG}title")]
                self.assertTrue(any(one.endswith(TITLES[title]) for one in titles[1:]), titles)
        with self.assertRaises(KeyError):
            draw(Form("%", "%", (Form("atom", "a"),)))

    def test_the_kept_drawings(self) -> None:
        for name, rules in HOUSES.items():
            with self.subTest(name):
                status, put, errors = run("draw", f"{TOP}/examples/{rules}")
                self.assertEqual((status, errors), (0, ""))
                with open(f"{KEPT}/{name}.svg") as file:
                    self.assertEqual(put, file.read())

    def test_each_atom_is_read_in_its_box(self) -> None:
        for text in [*expressions(), "a(1) - b(2,$x) | *(c + #d)"]:
            with self.subTest(text):
                found = ElementTree.fromstring(draw(parse(text)))
                self.assertEqual([one[2].text for one in boxes(found)], atoms(parse(text)))
                for one in boxes(found):
                    left, right = int(one[1].attrib["x"]), int(one[1].attrib["x"]) + int(one[1].attrib["width"])
                    self.assertEqual(one[0].text, one[2].text)
                    self.assertGreater(int(one[2].attrib["x"]), left)
                    self.assertLess(int(one[2].attrib["x"]) + LETTER * len(one[2].text or ""), right)
                    self.assertLess(right, int(found.attrib["width"]))

    def test_no_two_atoms_overlap(self) -> None:
        for text in expressions():
            with self.subTest(text):
                found = ElementTree.fromstring(draw(parse(text)))
                areas = [[int(one[1].attrib[name]) for name in ("x", "y", "width", "height")] for one in boxes(found)]
                self.assertEqual(len(areas), len(atoms(parse(text))))
                for number, (x, y, width, height) in enumerate(areas):
                    for left, top, wide, high in areas[:number]:
                        apart = x >= left + wide or left >= x + width or y >= top + high or top >= y + height
                        self.assertTrue(apart, (x, y, left, top))


def boxes(drawing: ElementTree.Element) -> list[ElementTree.Element]:
    """The groups of the atoms: a title, a box and a text each."""
    groups = drawing.iter(f"{SVG}g")
    return [group for group in groups if [part.tag for part in group] == [f"{SVG}{name}" for name in ("title", "rect", "text")]]


def atoms(form: Form) -> list[str]:
    """The texts of the atoms, from the left to the right."""
    if form.operator == "atom":
        return [form.word]
    return [text for operand in form.operands for text in atoms(operand)]


if __name__ == "__main__":
    unittest.main()
