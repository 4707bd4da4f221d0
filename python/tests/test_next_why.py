"""What `ixm-desk next`, `why` and the page's panels make of the program's `next`, `why` and `stuck`: the lines as it prints
them, the values that a history has, and the places of the parts. What needs the commands is skipped where it hasn't them."""

import unittest
from typing import Any

from ixm.desk import program
from ixm.desk.drawing import TITLES
from ixm.desk.forms import parse
from ixm.desk.menu import Menu, met, read_menu
from ixm.desk.parts import expand
from ixm.desk.stuck import read_search
from ixm.desk.why import Part, read_part
from tests.test_desk import TOP, run
from tests.test_desk_server import DOORS, Case, asked, framed, request

REPEAT = "*any $p (call($p,$x) - perform($p,$x))"
# A line of `why`, the part that it tells, and its sentence of `call(ben,xray)`.
PARTS = [
    ("at 57 $x=xray: " + REPEAT, Part(57, (("$x", "xray"),), REPEAT), "this refuses call(ben,xray), $x being xray"),
    ("at 0: a", Part(0, (), "a"), "this refuses call(ben,xray)"),
    ("at 7 $p=* $n=n_1: b($n,$p)", Part(7, (("$p", None), ("$n", "n_1")), "b($n,$p)"),
     "this refuses call(ben,xray), $p being some other value, $n being n_1"),
    ("at 3 $p=1: a @ b(1)", Part(3, (("$p", "1"),), "a @ b(1)"),
     "neither side of this @ knows call(ben,xray), $p being 1"),
    ("at 3: sync $p a($p)", Part(3, (), "sync $p a($p)"), "for no value this sync knows call(ben,xray)"),
    ("at 3: (a @ b) | c", Part(3, (), "(a @ b) | c"), "this refuses call(ben,xray)"),
]
NO_PARTS = ["permitted", "at: a", "at x: a", "at 0:", "at 0 $p: a", "at 0 p=1: a", "at 0 $p=1,2: a", ""]
NO_MENUS = ["call(anna,xray)", "call(anna;partial", "call();partial", "call($5);partial", "call(a,b,c,d,e);partial",
            "complete;partial;done", "1call;partial"]

# An expression, a history, and the values of its parameters in the atoms that the actions match.
MET = [
    ("all $p *(any $x (call($p,$x) - perform($p,$x)))", "call(anna,xray) perform(anna,xray) call(ben,ct)",
     "p=anna x=xray p=ben x=ct"),
    ("all $p (a($p,1) | b | c($p,$p) | any $q c($q,2))", "a(3,1) a(4,2) b c(5,5) c(6,7) c(2,2) a(8)", "p=3 p=5 p=2 q=2"),
]

# An expression with the lines of `stuck`, the sentence, the history, and the places with their actions.
NOTHING = "so nothing is known."
STUCK = "After these actions no others of these values complete the history. How many: "
SEARCHES = [
    ("(a - b) & (a - c)", "stuck after 0;never again at 5: b;never again at 15: c", STUCK + "0.", [], ["5 b", "15 c"]),
    ("?(a - b) & ?(a - c)",
     "stuck after 1;a;never again at 2: a;never again at 6: b;never again at 13: a;never again at 17: c",
     STUCK + "1.", ["a"], ["2 a", "6 b", "13 a", "17 c"]),
    ("*(a - b)", "never stuck 2", "No history of these values is stuck: each can be completed. States: 2.", [], []),
    ("a", "large", f"A state is larger than the limit of nodes, {NOTHING}", [], []),
    ("a", "more than 9 states", f"There are more than 9 states, {NOTHING}", [], []),
]
HOSPITAL = f"{TOP}/examples/hospital/expression"
# Given values after `call(anna,xray)` in the hospital, and what may come.
MENUS = [
    ("anna xray", "call(xray,anna);call(xray,$1);call($1,anna);call($1,$1);call($1,$2);perform(anna,xray);partial"),
    ("p=anna x=xray", "call($1,$1);call($1,$2);perform(anna,xray);partial"),
]
# An action there, the status, and what is said of it.
REASONS = [
    ("call(ben,xray)", 1, "3:8: this refuses call(ben,xray), $x being xray"),
    ("call(anna,ct)", 1, "1:8: this refuses call(anna,ct), $p being anna"),
    ("perform(ben,ct)", 1, "1:8: this refuses perform(ben,ct), $p being ben;"
                           "3:8: this refuses perform(ben,ct), $x being ct"),
    ("fly(anna)", 1, "2:1: neither side of this @ knows fly(anna)"),
    ("perform(anna,xray)", 0, "permitted"),
]


class TestLines(Case):
    def test_parts(self) -> None:
        for line, part, sentence in PARTS:
            with self.subTest(line):
                self.assertEqual(read_part(line), part)
                self.assertEqual(part.sentence("call(ben,xray)"), sentence)
        for line in NO_PARTS:
            with self.subTest(line), self.assertRaises(program.Unusable):
                read_part(line)

    def test_menus(self) -> None:
        for _, text in MENUS:
            *actions, state = text.split(";")
            self.assertEqual(read_menu([*actions, state]), Menu(actions, state))
        self.assertEqual(read_menu(["complete"]), Menu([], "complete"))
        for text in NO_MENUS:
            with self.subTest(text), self.assertRaises(program.Unusable):
                read_menu(text.split(";"))

    def test_searches(self) -> None:
        for text, lines, sentence, history, gone in SEARCHES:
            with self.subTest(lines):
                found = read_search(lines.split(";"), expand(text))
                self.assertEqual((found.sentence, found.history), (sentence, history))
                self.assertEqual(found.has_more, lines.startswith("more"))
                told = [f"{one.at} {one.sentence.removesuffix(' never comes again')}" for one in found.gone]
                self.assertEqual(told, gone)
        for lines in ("stuck after 1", "stuck after 0;a", "never stuck", "never stuck 2;a"):
            with self.subTest(lines), self.assertRaises(program.Unusable):
                read_search(lines.split(";"), expand("a"))

    def test_the_values_of_a_history(self) -> None:
        for text, actions, values in MET:
            self.assertEqual(met(parse(text), actions.split()), values.split())


# The rules of the hospital with a named part and comments, and where in them `call` and `*` of the second rule stand.
VISITS = "let visit($p,$x) = call($p,$x) - perform($p,$x); // one\nall $p *(any $x visit($p,$x)) /* in turn */\n" \
         "@ all $x *(any $p visit($p,$x))"
TEXT = expand(VISITS).text


def told(answer: Any, name: str) -> list[str]:
    """The lines of a panel's answer, with their places."""
    return ["{line}:{column}: {sentence}".format(**one) for one in answer[name]]


class TestPanels(Case):
    """The panels over a program of which `next`, `why` and `stuck` are played."""

    def test_the_parts_that_refuse_are_placed_and_framed(self) -> None:
        history = ["call(anna,xray)", "call(anna,xray)", "call(ben,ct)", "call(ben,xray)", "perform(anna,xray)"]
        lines = f"at {TEXT.rindex('*')} $x=xray: {REPEAT}\nat {TEXT.rindex('call')}: call($p,$x)\n"
        self.play("why", lines)
        desk = self.served(rules=VISITS)
        question, action = asked(VISITS, actions=history, explained=3), history[3]
        answer = request(desk, "why", question)[1]
        self.assertEqual(answer["action"], action)
        parts = [f"3:10: this refuses {action}, $x being xray", f"1:20: this refuses {action}"]
        self.assertEqual(told(answer, "parts"), parts)
        self.assertEqual(self.kept("text"), "call(anna,xray)\ncall(ben,ct)\n")
        self.assertEqual(self.kept("words").split("\n")[3:], [action, ""])
        shown = request(desk, "drawing", question)[1]["shown"]
        self.assertEqual(framed(shown, "refusing"), [("A", TITLES["*"]), ("B", "call($p,$x)")])
        for explained in (0, 2, 5, 9):
            question["explained"] = explained
            self.assertEqual(request(desk, "why", question), (200, {"action": None, "parts": []}))
            self.assertEqual(framed(request(desk, "drawing", question)[1]["shown"], "refusing"), [])

    def test_an_action_that_is_too_large_is_not_explained(self) -> None:
        desk = self.served(rules=DOORS)
        self.play("trace", "large\npartial\n")
        answer = request(desk, "why", asked(DOORS, actions=["open"]))
        self.assertEqual(answer, (200, {"action": None, "parts": []}))

    def test_the_values_that_are_tried(self) -> None:
        self.play("next", "call($1,$2)\n" * 201 + "partial\n")
        desk = self.served(rules=VISITS)
        history = [f"call(p{number},x{number})" for number in range(10)]
        own = [f"{name}={name}{number}" for number in range(10) for name in "px"]
        for given, count, tried in (("", 0, own[:0]), ("", 2, own[:4]), ("anna p=p1 anna", 2, [*own[:2], own[3]]),
                                    ("anna x=y", 10, own[6:])):
            with self.subTest(given, count=count):
                actions = history[:count] + history[: min(count, 1)]  # the last one is refused
                answer = request(desk, "next", asked(VISITS, actions=actions, given=given.split()))[1]
                self.assertEqual((answer["actions"], answer["count"]), (["call($1,$2)"] * 200, 201))
                self.assertEqual((answer["tried"], answer["left"]), (tried, 6 if count == 10 else 0))
                self.assertEqual(self.kept("words").split()[3:], [*dict.fromkeys(given.split()), *tried])
        self.write("words", "")
        many = " ".join(f"v{number}" for number in range(17))
        for given, sentence in (("p= a", "p= is no value such as anna, and none of a parameter such as p=anna"),
                                ("--nodes", "--nodes is no value such as anna, and none of a parameter such as p=anna"),
                                (many, "these are 17 values, and at most 16 can be given")):
            self.assertEqual(request(desk, "next", asked(VISITS, given=given.split())), (200, {"faulty": sentence}))
        self.assertEqual(self.kept("words"), "")

    def test_a_search(self) -> None:
        text, lines, sentence, history, _ = SEARCHES[1]
        self.play("stuck", lines.replace(";", "\n"))
        desk = self.served(rules=text)
        answer = request(desk, "stuck", asked(text, given=["u", "p=v", "u"]))[1]
        self.assertEqual((answer["sentence"], answer["history"], self.kept("text")), (sentence, history, "u\np=v\n"))
        self.assertEqual((answer["more"], self.kept("words").split()[3:]), (False, ["--states=9"]))
        self.assertEqual(told(answer, "gone")[2:], ["1:14: a never comes again", "1:18: c never comes again"])
        self.assertEqual(request(desk, "stuck", asked(text)), (200, {"faulty": "give one value at least"}))

    def test_what_is_no_answer(self) -> None:
        desk = self.served(rules=DOORS)
        self.play("next", "refused candidates\n", 3)
        sentence = "these are more candidates than the program tries"
        self.assertEqual(request(desk, "next", asked(DOORS)), (200, {"faulty": sentence}))
        self.play("why", "odd\n")
        status, answer = request(desk, "why", asked(DOORS, actions=["close"]))
        self.assertEqual((status, answer["error"]), (500, f"{self.folder}/played says what the desk doesn't know: odd"))

    def test_the_page_is_told_the_commands(self) -> None:
        desk = self.served(rules=DOORS)
        answer = request(desk, "begin", {})[1]
        self.assertEqual(answer["houses"], [f"{self.folder}/rules"])
        self.assertLessEqual({"trace", "lint", "bound"}, set(answer["commands"]))
        self.play("", "Usage: ixm COMMAND WORDS\n\nCommands:\n  why EXPR ACTIONS ACTION\n  work N SEED\n\nFor more\n", 2)
        self.assertEqual(request(desk, "begin", {})[1]["commands"], ["why", "work"])


class TestCommands(Case):
    """The commands over the program, which has to have them."""

    def test_next(self) -> None:
        self.needs("next")
        self.write("history", "call(anna,xray)\n")
        for given, lines in MENUS:
            with self.subTest(given):
                put = lines.replace(";", "\n") + "\n"
                self.assertEqual(run("next", HOSPITAL, f"{self.folder}/history", *given.split()), (0, put, ""))

    def test_why(self) -> None:
        self.needs("why")
        self.write("history", "call(anna,xray)\n")
        for action, status, lines in REASONS:
            with self.subTest(action):
                put = "".join(f"{HOSPITAL}:{line}\n" if status else f"{line}\n" for line in lines.split(";"))
                self.assertEqual(run("why", HOSPITAL, f"{self.folder}/history", action), (status, put, ""))

    def test_faults(self) -> None:
        self.needs("next", "why")
        rules, history = f"{self.folder}/rules", f"{self.folder}/history"
        for text, lines, line in (("*(open -\n", "open\n", f"{rules}:1:9: the text ends here, and something is missing"),
                                  (DOORS, "open\nopen\n", f"{history}:2:1: open isn't permitted here"),
                                  (DOORS, "open\nopen close", f"{history}:2:1: open close is no action")):
            self.write("rules", text)
            self.write("history", lines)
            with self.subTest(text, lines=lines):
                self.assertEqual(run("next", rules, history), (2, "", line + "\n"))
                self.assertEqual(run("why", rules, history, "close"), (2, "", line + "\n"))
        self.write("history", "open\n")
        self.assertEqual(run("why", rules, history, "open close"), (2, "", "ixm-desk: open close is no action\n"))
        line = "ixm-desk: open= is no value such as anna, and none of a parameter such as p=anna\n"
        self.assertEqual(run("next", rules, history, "open="), (2, "", line))


if __name__ == "__main__":
    unittest.main()
