#!/usr/bin/env python3
"""Ways to fool tools/believe.py: each is tried on the tree, and must be told as a fault.

A way is a list of edits (a file, a text that stands in it, what stands there instead; a file that isn't there is made)
and words of the fault that is wanted. The tree as it is must pass, and the edits are made in memory, where all that the
script reads is a text by its path. Ways whose fault mustn't go away when the page is written again are tried so too."""

from __future__ import annotations

import os
import shutil
import subprocess
import sys
import tempfile
import unittest
from dataclasses import dataclass

sys.dont_write_bytecode = True
TOP = os.path.dirname(os.path.dirname(os.path.abspath(__file__)))
sys.path.insert(0, os.path.join(TOP, "tools"))

from claims import digests, faults, page, reading  # noqa: E402
from claims.tree import DIGESTS, PAGE, PROMISES, Tree, read_tree  # noqa: E402

TREE = read_tree(TOP)
Edit = tuple[str, str, str]

MANAGE = "crates/ix_manage/src/lib.rt"
MAIN = "crates/ix_ixm/src/main.rt"
SITE = "crates/ix_outside/src/site.rt"
LAWS = "crates/ix_manager/src/laws.rt"
MEANING = "crates/ix_expr/specs/Meaning.antt"
AROUND = "crates/ix_manage/specs/Around.antt"
JOURNAL = "crates/ix_manage/specs/Journal.antt"
RUNS = "crates/ix_manager/specs/Runs.antt"
SERVE = "crates/ix_manage/specs/Serve.antt"
COUNTS = "crates/ix_outside/specs/Counts.antt"
HIDDEN = "crates/ix_manage/specs/inside/Fooling.antt"
USE_ROSE = "Rattle.ix_outside.specs.Counts.{Rose}"
USE_CALLS = "Rattle.ix_manage.specs.Site.{OnlyCalls}"
USE_KEEPS = "Rattle.ix_manager.specs.Acknowledged.{KeepsAcknowledged}"
USE_OR = "Rattle.ix_expr.specs.Form.{PlainAtom, Form, atom, opt, seq, star, par, par_star, or, and}"
USE_ANY = "Rattle.ix_expr.specs.Form.{couple, any, every, sync, all, times}"
USE_END = "Rattle.ix_outside.specs.declared.event.EventKind.TheVariants.{Bytes, Closed, End}"
CLAUSE = "    ensures puts {"
DEFINES_HIDDEN = "-- Fools.\nabbrev pub hidden : Type 0\nhidden = Type 0\n"
USES_HIDDEN = "ghost use Rattle.ix_manage.specs.inside.Fooling.{hidden};\n"
WEAK = "pub fn %s() -> u8\n    ensures { 0 ≡ 0 }\n{\n    0\n}\n"
SAYS = "says something else"
RENAMES = "which is the name of something else"
HIDES = "in which a claim could hide"


@dataclass(frozen=True)
class Way:
    """A way to fool the script, and words of the fault that is wanted, which stays when the page is written again."""

    edits: list[Edit]
    wanted: str
    stays: bool = True


def text(path: str) -> str:
    return TREE.text(path)


def changed(path: str, old: str, new: str, wanted: str = SAYS) -> Way:
    """A text that says something else under its old name: the digest tells, and a reader of the digests judges."""
    return Way([(path, old, new)], wanted, stays=False)


def renamed(path: str, old: str, new: str) -> Way:
    return Way([(path, "use " + old, "use " + new)], RENAMES)


def without(path: str, begin: str, end: str) -> str:
    """What stands in a file from one text up to another."""
    whole = text(path)
    start = whole.index(begin)
    return whole[start:whole.index(end, start) + len(end)]


def whole_manage() -> str:
    """The function `manage` with its body."""
    return without(MANAGE, "pub fn manage<", "\n}\n")


def other(call: str, program: str = "use ix_fooling::other;\nfn main() { other(); }\n") -> Way:
    """Another program, whose call or a trait of it has a clause on what isn't to be believed."""
    traits = "pub trait Fools {\n    fn fool(&self)\n        ensures { hidden };\n}\n"
    return Way([(HIDDEN, "", DEFINES_HIDDEN), ("crates/ix_other/src/main.rt", "", program),
                ("crates/ix_fooling/src/lib.rt", "", USES_HIDDEN + traits + call)], "a claim reaches hidden")


OTHER = "pub fn other() -> u8\n    ensures { hidden }\n{\n    0\n}\n"
# A crate of another name than ours begin with.
AID: list[Edit] = [("crates.txt", "ix_lines:", "aid:\nix_lines:")]
A_LAW = without(LAWS, "pub fn over_tickets_stay_over()", "{}\n")
A_FIELD = "  pub ends : (image : List ℕ) → is.now image → EndsAs session.ending session.last.history image\n"
A_CASE = "IsComplete (par_star y) e w = Numbered (IsComplete y e) w\n"

NAMES = {
    "a clause's name is a library's, renamed": renamed(
        MANAGE, USE_ROSE, "Rattle.std.specs.Prelude.{◌≤◌ as Rose}"),
    "the same in what is around a run": renamed(AROUND, USE_ROSE, "Rattle.std.specs.Prelude.{◌≤◌ as Rose}"),
    "the same in how a session ends": Way([
        ("crates/ix_manage/specs/Session.antt", "Counts.{Counts, Rose}",
         "Counts.{Counts}\nuse Rattle.std.specs.Prelude.{◌≤◌ as Rose}")], RENAMES),
    "the same in how a run ends": renamed(
        "crates/ix_manage/specs/Ends.antt", USE_ROSE, "Rattle.std.specs.Prelude.{◌≤◌ as Rose}"),
    "the same in the premises of a device": Way([
        (SITE, "Counts.{CountsFault, Rose}",
         "Counts.{CountsFault};\nghost use Rattle.std.specs.Prelude.{◌≤◌ as Rose}")], RENAMES),
    "a clause's name is a weaker one's, renamed": Way([
        (MANAGE, "SiteState.{OnlyDisk}", "SiteState.{OnlySend as OnlyDisk}")], RENAMES),
    "a clause's name is that of its neighbour, renamed": Way([
        (MANAGE, "SiteState.{OnlyDisk}", "SiteState.{OnlyDisk as OnlySite}"),
        (MANAGE, USE_CALLS, "Rattle.ix_manage.specs.Site.{OnlyCalls, OnlyCalls as OnlyDisk}")], RENAMES),
    "or and and are exchanged": renamed(MEANING, USE_OR, USE_OR.replace("or, and}", "or as and, and as or}")),
    "any and every are exchanged": renamed(
        MEANING, USE_ANY, USE_ANY.replace("any, every", "any as every, every as any")),
    "variants of the code are exchanged": renamed(
        RUNS, USE_END, USE_END.replace("Closed, End", "Closed as End, End as Closed")),
    "one command is taken for another": Way([
        ("crates/ix_manage/specs/Command.antt", "serve", "replay as serve")], RENAMES),
    "one refusal is taken for another": Way([
        ("crates/ix_manager/specs/Runs.antt", "Rattle.ix_manager.specs.Machine.{",
         "Rattle.ix_manager.specs.Refusals.{no_memory as disk}\nuse Rattle.ix_manager.specs.Machine.{")], RENAMES),
    "an operator is another, renamed": Way([
        (MANAGE, "Prelude.{◌≡◌,", "Prelude.{◌≥◌ as ◌≤◌, ◌≡◌,")], RENAMES),
    "a name of ours is given to a library's": Way([
        (MANAGE, "false, map, string_bytes}", "false, string_bytes}"),
        (MANAGE, USE_ROSE, "Rattle.ix_outside.specs.Counts.{Rose, Rose as map}")], RENAMES),
    "a definition comes from a crate of another name": Way(AID + [
        ("crates/aid/proofs/Weak.antt", "", "-- Weak.\nabbrev pub Keeps : Type 0\nKeeps = Type 0\n"),
        (JOURNAL, "Images.{EndsAs, IsStartable, Keeps, with_failed}",
         "Images.{EndsAs, IsStartable, with_failed}\nuse Rattle.aid.proofs.Weak.{Keeps}")],
        "Rattle.aid.proofs.Weak.Keeps"),
    "the same of what was acknowledged": Way(AID + [
        ("crates/aid/proofs/Weak.antt", "", "-- Weak.\nabbrev pub KeepsAcknowledged : Type 0\nKeepsAcknowledged = Type 0\n"),
        (SERVE, "use " + USE_KEEPS, "use Rattle.aid.proofs.Weak.{KeepsAcknowledged}")],
        "Rattle.aid.proofs.Weak.KeepsAcknowledged"),
    "the same, and the true one is imported as a binder's name": Way(AID + [
        (SERVE, "use " + USE_KEEPS, "use Rattle.aid.proofs.Weak.{KeepsAcknowledged}\n"
         "use Rattle.ix_manager.specs.Acknowledged.{KeepsAcknowledged as left}")],
        "Rattle.aid.proofs.Weak.KeepsAcknowledged"),
    "a definition comes from the specs of a crate of another name": Way(AID + [
        ("crates/aid/specs/Weak.antt", "", "-- Weak.\nabbrev pub Rose : Type 0\nRose = Type 0\n"),
        (MANAGE, USE_ROSE, "Rattle.aid.specs.Weak.{Rose}")], "module aid Weak is new", stays=False),
    "a definition is taken out of a headline": Way([
        (JOURNAL, "image → Reopens session", "image → Other session")], "no claim reaches Reopens"),
    "a clause cites a lemma of proofs": Way([
        (MANAGE, "ghost use " + USE_ROSE, "ghost use Rattle.ix_manage.proofs.Fooling.{hides};\nghost use " + USE_ROSE),
        (MANAGE, CLAUSE, "    ensures more { hides result }\n" + CLAUSE)], "Rattle.ix_manage.proofs.Fooling.hides"),
    "a clause cites a full name of proofs": Way([
        (MANAGE, CLAUSE, "    ensures more { Rattle.ix_manage.proofs.Fooling.hides result }\n" + CLAUSE)],
        "Rattle.ix_manage.proofs.Fooling.hides"),
    "a clause cites an operator of inside": Way([
        (HIDDEN, "", "-- Fools.\nabbrev pub ◌⊕◌ : Type 0\n◌⊕◌ = Type 0\n"),
        (MANAGE, "ghost use " + USE_ROSE,
         "ghost use " + USE_ROSE + ";\nghost use Rattle.ix_manage.specs.inside.Fooling.{◌⊕◌}"),
        (MANAGE, CLAUSE, "    ensures more { result ⊕ 0 }\n" + CLAUSE)], "a claim reaches ◌⊕◌"),
    "a definition in a mutual block is followed": Way([
        (HIDDEN, "", DEFINES_HIDDEN),
        ("crates/ix_manage/specs/Fooled.antt", "", "-- Fools.\nuse Rattle.ix_manage.specs.inside.Fooling.{hidden}\n"
         "mutual\n  unfolding fooled\n  pub fooled : Type 0\n  fooled = hidden\n"),
        (MANAGE, "ghost use " + USE_ROSE,
         "ghost use " + USE_ROSE + ";\nghost use Rattle.ix_manage.specs.Fooled.{fooled}"),
        (MANAGE, CLAUSE, "    ensures more { fooled }\n" + CLAUSE)], "a claim reaches hidden"),
    "one name is imported twice": Way([
        (HIDDEN, "", "-- Fools.\nabbrev pub Rose : Type 0\nRose = Type 0\n"),
        (MANAGE, "ghost use " + USE_ROSE,
         "ghost use Rattle.ix_manage.specs.inside.Fooling.{Rose};\nghost use " + USE_ROSE)], "a claim reaches Rose"),
    "a module takes the place of declared types": Way([
        ("crates/ix_proto/specs/declared/Reply.antt", "", "-- Fools.\n")], HIDES),
    "a letter looks like another": Way([
        ("crates/ix_manage/specs/Around.antt", "FilesFailed around", "FilеsFailed around")], HIDES),
    "a module is exported from elsewhere": Way([
        (COUNTS, "use Rattle.std", "pub use Rattle.ix_outside.specs.Weak.{Rose}\nuse Rattle.std")],
        "Rattle.ix_outside.specs.Weak.Rose"),
    "a constructor's full name is another's": changed(
        "crates/ix_manage/specs/Session.antt", "session.ending ≡ stopped",
        "session.ending ≡ Rattle.ix_manager.specs.Runs.going"),
}

TEXTS = {
    "a clause says less under its old name": changed(MANAGE, "result ≡ 5\n", "result ≡ 55\n"),
    "a clause is dropped": changed(MANAGE, without(MANAGE, "    ensures wire_fault", "wire }\n"), ""),
    "a definition says less under its old name": changed(COUNTS, "Rose before now = ", "Rose before now = 0 ≤ "),
    "a field is commented out": changed(JOURNAL, A_FIELD, "  -- " + A_FIELD[2:]),
    "a field is commented out as a block": Way([(JOURNAL, A_FIELD, "  {- " + A_FIELD[2:-1] + " -}\n")], HIDES),
    "a case is dropped": changed(MEANING, A_CASE, ""),
    "a case is there twice": changed(MEANING, A_CASE, A_CASE + A_CASE),
    "a case is added in front of one": changed(
        MEANING, A_CASE, "IsComplete (any_other y) e w = IsComplete y e w\n" + A_CASE),
    "a case hangs on the line above": changed(MEANING, A_CASE, "   " + A_CASE),
    "a law has a premise that is never there": changed(
        "crates/ix_manager/specs/LaterLaws.antt", "OverTicketsStayOver =\n", "OverTicketsStayOver = ⊥ →\n"),
    "a law has a bound": changed(LAWS, "pub fn over_tickets_stay_over()", "pub fn over_tickets_stay_over<T: Copy>()"),
    "a law's function is gone": Way([(LAWS, A_LAW, "")], "nothing is law ix_manager over_tickets_stay_over any more",
                                    stays=False),
    "a law is asserted of nothing": changed(LAWS, "    ensures { OverTicketsStayOver }\n{}\n", "{}\n"),
    "a law has a body that does something": Way([
        (LAWS, "    ensures { OverTicketsStayOver }\n{}\n", "    ensures { OverTicketsStayOver }\n{ loop {} }\n")],
        "nothing is law ix_manager over_tickets_stay_over any more", stays=False),
    "a definition stands in a list of modules": Way([
        ("crates/ix_manage/specs/Lib.antt", "pub mod Around\n", "pub mod Around\npub Rose : Type 0\nRose = Type 0\n")],
        HIDES),
    "a constant has another value": changed("crates/ix_journal/src/lib.rt", "MOST_RECORDS: usize = 1_000_000",
                                            "MOST_RECORDS: usize = 10"),
    "a byte of the format is another": changed("crates/ix_journal/src/lib.rt", "OPEN: u8 = 0xA5", "OPEN: u8 = 0"),
    "variants of a reply have each other's names": changed(
        "crates/ix_proto/src/reply.rt", "Granted(", "Confirmed_("),
    "a type of a device has a Model": Way([
        ("crates/ix_outside/src/event.rt", "pub struct Event",
         "impl Model for Event {\n    ghost Value = { Event };\n    ghost invariant = { λ e. ⊥ };\n}\n\n"
         "pub struct Event")],
        "has a Model"),
    "the program's end gives another status": changed(
        MAIN, "ExitCode::from(manage(rt.alloc(), &words, &mut files, &mut site, &mut out))",
        "match manage(rt.alloc(), &words, &mut files, &mut site, &mut out) {\n        3 => ExitCode::from(0),\n"
        "        status => ExitCode::from(status),\n    }"),
    "a trait has one call less": changed(
        SITE, without(SITE, "    /// Brings to the disk", "(state self.new) };\n"), ""),
    "a trait's own definition says less": changed(SITE, "{ λ _. nothing_left }", "{ λ site. nothing_left }"),
    "a promise names a law that is gone": Way([
        (PROMISES, "`complete_words_are_partial`", "`complete_words_are_whole`")],
        "nothing is called complete_words_are_whole"),
    "a promise names another law": changed(PROMISES, "`over_tickets_stay_over`", "`told_entries_stay`"),
    "a promise says more": changed(PROMISES, "no later state, nor the next run,", "no later state, and maybe the next run,"),
    "a premise of promises is dropped": changed(PROMISES, "before a `stop`, ", ""),
}

PROMISED = {
    "a promise's clause is gone": Way([
        ("crates/ix_engine/src/engine.rt", "ensures not_partial", "ensures is_partial")],
        "Engine::prepare has no clause not_partial"),
    "a promise's clause is another call's": Way([
        (PROMISES, "(`history`, `allowed`, `refused`)", "(`history`, `follows`)")],
        "Engine::resume has no clause follows"),
    "a promise's call is another type's": Way([
        (PROMISES, "`Engine::resume`", "`Engine::handle`")], "nothing is called Engine::handle"),
    "a promise has nothing that carries it": Way([
        (PROMISES, "- A poll gives", "- Nothing is lost.\n- A poll gives")],
        "nothing carries the promise: - Nothing is lost."),
    "a promise believes a module that is gone": Way([
        (PROMISES, "`ix_many` Rounds", "`ix_many` Squares")], "ix_many has no module Squares"),
    "a promise believes a definition that is gone": Way([
        (PROMISES, "(ReadsForm)", "(ReadsForms)")], "ix_manage Trace has no ReadsForms"),
    "a chapter believes a module that is gone": Way([
        (PROMISES, "For all *believe* `ix_follow` Following", "For all *believe* `ix_follow` Leading")],
        "ix_follow has no module Leading"),
    "a promise stands in a table": Way([
        (PROMISES, "- A poll gives", "| A poll gives")], "a table, whose names nothing looks at"),
}

HIDING = {
    "the claim is a comment, and another stands in its place": Way([
        (MANAGE, whole_manage(), "/*\n" + whole_manage() + "*/\npub use weak::run_weakly as manage;\n"),
        ("crates/ix_manage/src/weak.rt", "", WEAK % "run_weakly")], HIDES),
    "the claim is a comment, and another of its name is used": Way([
        (MANAGE, whole_manage(), "/*\n" + whole_manage() + "*/\npub use weak::manage;\nmod weak;\n"),
        ("crates/ix_manage/src/weak.rt", "", WEAK % "manage")], HIDES),
    "the claim is a string": Way([
        (MANAGE, whole_manage(), 'const TEXT: &str = r"\n' + whole_manage() + '";\npub use weak::manage;\nmod weak;\n'),
        ("crates/ix_manage/src/weak.rt", "", WEAK % "manage")], "claim ix_manage manage says something else", False),
    "the claim stands in a file that nobody uses": Way([
        (MANAGE, whole_manage(), "mod strong;\npub use ix_weak::manage;\n"),
        ("crates/ix_manage/src/strong.rt", "", whole_manage()),
        ("crates/ix_weak/src/lib.rt", "", WEAK % "manage")], "claim ix_weak manage is new", False),
    "a law is a comment": Way([(LAWS, A_LAW, "/*\n" + A_LAW + "*/\n")], HIDES),
    "a trait is a comment, and another stands in its place": Way([
        (SITE, without(SITE, "pub trait Site {", "\n}\n"),
         "/*\n" + without(SITE, "pub trait Site {", "\n}\n") + "*/\npub use other::Weak as Site;\n")], HIDES),
    "a trait is another crate's of the same name": Way([
        (MANAGE, "use ix_outside::{Files, Sink, Site};", "use ix_outside::{Files, Sink};\nuse ix_weak::Site;"),
        ("crates/ix_weak/src/lib.rt", "", "pub trait Site {\n    fn next(&mut self);\n}\n")],
        "trait ix_weak Site is new", stays=False),
    "a trait is another one, renamed": Way([
        (MANAGE, "use ix_outside::{Files, Sink, Site};", "use ix_outside::{Files, Sink, Sink as Site};")],
        "so its name isn't what is called"),
    "the program calls another function by the claim's name": Way([
        (MAIN, "use ix_manage::manage;", "use ix_manage::laws::other as manage;"),
        ("crates/ix_manage/src/laws.rt", "", WEAK % "other")], "so its name isn't what is called"),
    "the program calls the crate by another name": Way([
        (MAIN, "use ix_manage::manage;", "use ix_manage as program; // use ix_manage::manage; manage("),
        (MAIN, "manage(rt.alloc()", "program::other(rt.alloc()")], "isn't what is called"),
    "the program names the claim and calls something else": Way([
        (MAIN, "ExitCode::from(manage(rt.alloc(), &words, &mut files, &mut site, &mut out))",
         "ExitCode::from(other(&words, manage))")], "doesn't call manage( by its name alone"),
    "the program has a function of the claim's name": Way([
        (MAIN, "fn main(rt", "fn manage() {}\n\nfn main(rt")], "gives the name manage to something of its own"),
    "a law's module is private": Way([
        ("crates/ix_manager/src/lib.rt", "pub mod laws;", "mod laws;")], "isn't public"),
    "a macro makes the claim": Way([
        (MANAGE, whole_manage(), "macro_rules! claim {\n    () => {\n" + whole_manage() + "    };\n}\n")], HIDES),
    "the claim isn't there where the program is built": Way([
        (MANAGE, "pub fn manage<", "#[cfg(test)]\npub fn manage<")], HIDES),
    "laws aren't there, in a module that is called tests": Way([
        ("crates/ix_manager/src/lib.rt", "pub mod laws;", "#[cfg(any())]\npub mod tests;\npub mod laws;")], HIDES),
    "a whole crate isn't there": Way([(MAIN, "#![tactic(auto)]", "#![tactic(auto)]\n#![cfg(any())]")], HIDES),
    "laws are there for tests alone": Way([
        ("crates/ix_manager/src/lib.rt", "pub mod laws;", "#[cfg(test)]\npub mod laws;")],
        "nothing is law ix_manager over_tickets_stay_over any more", stays=False),
    "a module's file is another one": Way([
        (MANAGE, "pub mod laws;", '#[path = "other.rt"]\npub mod laws;')], HIDES),
    "a module stands within a file": Way([
        (MANAGE, "pub mod laws;", "pub mod laws {\n    pub fn nothing() {}\n}\n")], HIDES),
    "all names of a module are used": Way([(MANAGE, "use run::run;", "use run::*;")], HIDES),
    "a list of modules imports a definition": Way([
        ("crates/ix_manage/specs/Lib.antt", "pub mod Around\n", "pub mod Around\nabbrev Keeps = 0\n")], HIDES),
    "a new program's call is a claim": other(OTHER),
    "a new program's call is named in braces": other(OTHER, "use ix_fooling::{other};\nfn main() { other(); }\n"),
    "a new program's call is named by its path": other(OTHER, "fn main() { ix_fooling::other(); }\n"),
    "a new program's call is one of a type": other(
        "pub struct Other;\nimpl Other {\n"
        "    pub fn other() -> u8\n        ensures { hidden }\n    {\n        0\n    }\n}\n",
        "use ix_fooling::{Other, Second};\nfn main() { Other::other(); }\n"),
    "a bound stands behind a plus": other("pub fn other<S: Drop + Fools>(s: &S) -> u8\n{\n    0\n}\n"),
    "a bound stands in a where": other("pub fn other<S>(s: &S) -> u8\nwhere\n    S: Fools,\n{\n    0\n}\n"),
    "a bound stands at a parameter": other("pub fn other(s: &impl Fools) -> u8\n{\n    0\n}\n"),
    "a bound has a bound": other("pub trait Above: Fools {\n}\npub fn other<S: Above>(s: &S) -> u8\n{\n    0\n}\n"),
}

PAGES = {
    "a module of the page is gone": changed(PAGE, ", Meaning `ts`", "", "its lists aren't those of the claims"),
    "a module of the page is a way's no more": changed(PAGE, "Meaning `ts`", "Meaning `s`",
                                                       "its lists aren't those of the claims"),
    "a module of the page stands before one that it uses": changed(
        PAGE, "Environment `ts`, Tests `ts`, Meaning `ts`", "Meaning `ts`, Environment `ts`, Tests `ts`",
        "Rattle.ix_expr.specs.Meaning stands above Rattle.ix_expr.specs.Environment"),
    "a constant of the page has another value": changed(PAGE, "OPEN is `0xA5`", "OPEN is `0`",
                                                        "its lists aren't those of the claims"),
    "a digest is gone": changed(DIGESTS, "claim ix_manage manage", "claim ix_manage other",
                                "claim ix_manage manage is new"),
}


def edited(edits: list[Edit]) -> Tree:
    """The tree with these edits."""
    files: dict[str, str] = {}
    for path, old, new in edits:
        before = files.get(path, TREE.text(path))
        if old not in before:
            raise AssertionError("%s has no text %r" % (path, old))
        files[path] = before.replace(old, new, 1) if old else before + new
    return TREE.with_edits(files)


def written(tree: Tree) -> Tree:
    """The tree after `believe.py --write`."""
    tree = tree.with_edits({PAGE: page.rewritten(reading.read(tree), tree.text(PAGE))})
    return tree.with_edits({DIGESTS: digests.written(reading.read(tree))})


class Fooling(unittest.TestCase):
    def tried(self, ways: dict[str, Way]) -> None:
        for name, way in ways.items():
            with self.subTest(name):
                now = reading.read(edited(way.edits))
                told = faults.lasting(now) if way.stays else faults.faults(now)
                self.assertTrue(any(way.wanted in fault for fault in told), told[:9])

    def test_names(self) -> None:
        self.tried(NAMES)

    def test_texts(self) -> None:
        self.tried(TEXTS)

    def test_promised(self) -> None:
        self.tried(PROMISED)

    def test_hiding(self) -> None:
        self.tried(HIDING)

    def test_pages(self) -> None:
        self.tried(PAGES)

    def test_what_is_written_again_stays(self) -> None:
        self.assertEqual(written(TREE).files, TREE.files)

    def test_the_command_ends_so(self) -> None:
        """The script itself, on a copy of what it reads."""
        with tempfile.TemporaryDirectory() as folder:
            for path, content in TREE.files.items():
                os.makedirs(os.path.dirname(os.path.join(folder, path)), exist_ok=True)
                with open(os.path.join(folder, path), "w", encoding="utf-8") as file:
                    file.write(content)
            shutil.copytree(os.path.join(TOP, "tools"), os.path.join(folder, "tools"), dirs_exist_ok=True)
            self.assertEqual(self.status(folder), 0)
            with open(os.path.join(folder, COUNTS), "a", encoding="utf-8") as file:
                file.write("\nabbrev pub Unused : Type 0\nUnused = Type 0\n")
            self.assertEqual(self.status(folder), 1)

    def status(self, folder: str) -> int:
        words = [sys.executable, os.path.join(folder, "tools/believe.py")]
        return subprocess.run(words, stdout=subprocess.DEVNULL).returncode


if __name__ == "__main__":
    unittest.main()
