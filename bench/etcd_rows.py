"""The cases of bench/gateway.

What is wanted comes from docs/standby.md, docs/journal.md, docs/protocol.md and etcd's API, and not from what the program
does."""

from __future__ import annotations

from collections.abc import Iterator, Sequence
from dataclasses import dataclass, replace
from typing import Union

from etcd_texts import (BLOCK, CUT, DROPPED, LOOK, NO_HEAD, RANGE, Answer, Asks, Owner, applied, attaches, blocks_found,
                        chunked, code, continued, error, fenced, found, in_json, looks, reads, trailed, whole)


@dataclass(frozen=True)
class Puts:
    """The next line of standard output."""

    line: str


@dataclass(frozen=True)
class Sends:
    """The client sends these lines in one piece."""

    lines: tuple[str, ...]


@dataclass(frozen=True)
class Hears:
    """The next line that the client is replied."""

    line: str


@dataclass(frozen=True)
class Parts:
    """The client's connection ends, and no byte more comes."""


@dataclass(frozen=True)
class Unanswered:
    """This is asked again and again and is never answered. Nothing is replied or put meanwhile."""

    asks: Asks


@dataclass(frozen=True)
class Patience:
    """Ten seconds have gone since the client sent something, or the manager was started."""


Step = Union[Asks, Puts, Sends, Hears, Parts, Unanswered, Patience]
TWO_MEMBERS = "127.0.0.1:{0},127.0.0.1:{1}"


@dataclass(frozen=True)
class Case:
    """What happens, in order; the status with which the manager ends; ETCDCTL_ENDPOINTS, with a gateway's two ports and one at
    which nobody listens; and the expression."""

    name: str
    steps: Sequence[Step]
    status: int
    members: str = TWO_MEMBERS
    expression: str = "a - b"
    is_long: bool = False


# The journal of docs/journal.md: of `a - b`, with `a` confirmed.
JOURNAL = bytes.fromhex("A5 49 58 4A 32 00 05 61 20 2D 20 62 A5 00 06 62 6F 6F 74 20 31 A5 00 05 31 2D 31 20 61 00")
GATE, BOOT_GATE, CLOSED, OPEN = 12, 21, b"\0", b"\xA5"

# The file behind each sync of a start on an absent one: it is as it was; a closed gate; the header; its first gate is open; a
# boot; that counts.
BEGUN = (
    b"",
    CLOSED,
    CLOSED + JOURNAL[1:GATE] + CLOSED,
    OPEN + JOURNAL[1:GATE] + CLOSED,
    JOURNAL[:GATE] + CLOSED + JOURNAL[GATE + 1:BOOT_GATE] + CLOSED,
    JOURNAL[:BOOT_GATE] + CLOSED,
)
# The same of a confirm.
CONFIRMED = (JOURNAL[:BOOT_GATE] + CLOSED + JOURNAL[BOOT_GATE + 1:], JOURNAL)

ASK = "ask a 86400000"


def ends(cause: str, status: int = 5) -> list[Step]:
    """The last lines of a manager that asked etcd in vain, in a call of the disk or in one of the wire."""
    return [Puts("refused disk" if status == 5 else "refused wire"), Puts(f"etcd {cause}")]


def attached() -> list[Step]:
    """There is no head, and the manager attaches; etcd's revision is 2 then."""
    return [looks(NO_HEAD), attaches(0, 0, applied(2))]


def begun(owner: Owner) -> list[Step]:
    syncs = [owner.sync(file, *([0] if file else [])) for file in BEGUN]
    return [*attached(), *syncs, Puts("history 0")]


def stops(owner: Owner) -> list[Step]:
    return [Sends(("stop",)), owner.checks(), Hears("stopping"), Parts()]


def granted(owner: Owner) -> list[Step]:
    """A manager on a new journal that has granted `a`."""
    return [*begun(owner), Sends((ASK,)), owner.checks(), Hears("granted 1-1")]


def a_new_journal() -> Iterator[Case]:
    owner = Owner(2)
    # A confirm's syncs tell that nobody else attached; any other reply waits for a look, and two of one piece for the same.
    steps = [*granted(owner), Sends(("confirm 1-1",)), *(owner.sync(file, 0) for file in CONFIRMED), Hears("confirmed 1"),
             Sends(("log 1", "may b")), owner.checks(), Hears("entry 1 a"), Hears("yes"), *stops(owner)]
    yield Case("a new journal", steps, 0, "http://127.0.0.1:{0}")


ACTION = f"do({','.join(letter * 32 for letter in 'abcd')})"


def record(text: str) -> bytes:
    return len(text).to_bytes(2, "big") + text.encode()


def long_journal() -> bytes:
    """One of 4,099 bytes, with 27 actions."""
    # A number of more digits makes a record longer: the last six make up what is wanting.
    numbers = [*range(1, 22), 100_022, *(10**19 + number for number in range(23, 28))]
    records = [record("boot 1"), *(record(f"1-{number} {ACTION}") for number in numbers)]
    return b"\xA5IXJ2" + b"\xA5".join([record(f"*{ACTION}"), *records]) + CLOSED


LONG = long_journal()
BLOCKS = ((0, LONG[:BLOCK]), (1, LONG[BLOCK:]))
NEXT_BOOT = record("boot 2") + CLOSED


def with_answer(step: Asks, data: bytes, piece: int = 0) -> Asks:
    return replace(step, answer=Answer(data, piece=piece))


def a_file_of_two_blocks() -> Iterator[Case]:
    """The answer comes at once; in chunks and in pieces, as etcd sends long ones; and with the second block first."""
    in_order, turned = blocks_found(*BLOCKS), blocks_found(*reversed(BLOCKS))
    for how, data, piece in (("", whole(in_order), 0), (", in chunks", chunked(in_order), 777), (", turned", whole(turned), 0)):
        owner = Owner(9)
        syncs = [owner.sync(LONG), owner.sync(LONG + NEXT_BOOT, 1), owner.sync(LONG[:-1] + OPEN + NEXT_BOOT, 1)]
        opens: list[Step] = [looks(found(3, "2 1 4099")), attaches(3, 4099, applied(9)),
                             with_answer(reads(9, 0, ""), data, piece), *syncs, Puts("history 27")]
        steps = [*opens, Sends(("log 1", "log 27")), owner.checks(), Hears(f"entry 1 {ACTION}"), Hears(f"entry 27 {ACTION}"),
                 *stops(owner)]
        yield Case(f"a file of two blocks{how}", steps, 0, "[::1]:{2},http://127.0.0.1:{0}", f"*{ACTION}")


def head_with(**fields: str) -> str:
    return in_json({"header": {}, "kvs": [fields]})


# A look's answer that tells no head: it is none of a range, or what stands there isn't a head of ours.
NO_HEADS = (
    ("{}", "no field"),
    ('{"kvs":[]}', "no header"),
    ('{"header":{},"kvs":[]}', "no pair"),
    (head_with(mod_revision="3", value=code(b"2 1")), "two numbers"),
    (head_with(mod_revision="3", value=code(b"2 1 3 4")), "four numbers"),
    (head_with(mod_revision="3", value=code(b"2 x 3")), "a word that is no number"),
    (head_with(mod_revision="3", value=code(b"2 1 \xFF")), "bytes that are no text"),
    (head_with(mod_revision="3", value="2 1 3"), "a value that isn't in base64"),
    (head_with(mod_revision="3"), "an empty value"),
    (head_with(value=code(b"2 1 3")), "no revision"),
    ('{"header":{},"kvs":[{"mod_revision":3,"value":"MiAxIDM="}]}', "a revision that is no text"),
)


def heads_that_are_none() -> Iterator[Case]:
    for body, what in NO_HEADS:
        yield Case(f"no head: {what}", [looks(body), *ends("damaged")], 5)


OTHERS = "7 1 0"  # the head of another manager


def transactions() -> Iterator[Case]:
    """Those of a start, and what is made of their answers."""
    owner = Owner(8)
    # Another manager came between the look and the attach.
    steps = [looks(NO_HEAD), attaches(0, 0, fenced(7, OTHERS)), looks(found(7, OTHERS)), attaches(7, 0, applied(8)),
             with_answer(owner.sync(b""), error(429)), *ends("full")]
    yield Case("an attach that came too late is made anew", steps, 5)
    for body, what in ((NO_HEAD, "no response"), ('{"succeeded":true}', "no header"), ("[]", "a list")):
        yield Case(f"no answer of an attach: {what}", [looks(NO_HEAD), attaches(0, 0, body), *ends("damaged")], 5)
        sync = with_answer(Owner(2).sync(b""), whole(body))
        yield Case(f"no answer of a sync: {what}", [*attached(), sync, *ends("damaged")], 5)
    for head, what in ((OTHERS, "another owner"), ("3 1 0", "another owner, with the same number"),
                       ("2 0 0", "an earlier sync"), ("2 2 0", "a later sync")):
        sync = with_answer(Owner(2).sync(b""), whole(fenced(7, head)))
        yield Case(f"a sync is refused: the head is of {what}", [*attached(), sync, *ends("taken")], 5)


def a_sync_whose_answer_is_lost() -> Iterator[Case]:
    """It took place, so the same one that is sent again is refused, with a head that is its own. The next one compares its
    revision, which etcd made as it liked."""
    owner = Owner(2)
    before = [*granted(owner), Sends(("confirm 1-1",))]
    lost = owner.sync(CONFIRMED[0], 0, answer=Answer(b"", CUT))
    again = replace(lost, answer=Answer(whole(fenced(77, owner.head))), member=1)
    owner.revision = 77
    steps = [*before, lost, again, owner.sync(CONFIRMED[1], 0), Hears("confirmed 1"), *stops(owner)]
    yield Case("a sync whose answer is lost", steps, 0)


# Answers to a read of two blocks of 4,099 bytes that don't bring them, and how the run ends.
NO_BLOCKS = (
    (NO_HEAD, "taken", "another manager attached"),
    (fenced(3, "2 1 4099"), "taken", "a transaction that didn't take place"),
    (blocks_found((0, b"xx"), (1, None)), "damaged", "the first one is short"),
    (blocks_found(BLOCKS[0], (1, None)), "damaged", "the second one is empty"),
    (blocks_found(BLOCKS[0], (1, LONG[BLOCK:-1])), "damaged", "the second one is short"),
    (blocks_found(BLOCKS[0], (1, LONG[BLOCK:] + CLOSED)), "damaged", "the second one is long"),
)


def blocks_that_are_none() -> Iterator[Case]:
    before = [looks(found(2, "2 1 4099")), attaches(2, 4099, applied(3))]
    for body, cause, what in NO_BLOCKS:
        yield Case(f"no blocks: {what}", [*before, reads(3, 0, body), *ends(cause)], 5)
    missing = [reads(3, 0, blocks_found(BLOCKS[0])), reads(3, 1, blocks_found())]
    yield Case("no blocks: the second one is missing", [*before, *missing, *ends("damaged")], 5)


NO_ENDPOINTS = ("", "localhost:{0}", "https://127.0.0.1:{0}", "127.0.0.1", "127.0.0.1:{0},", "127.0.0.1:{0},127.0.0.1",
                "http://http://127.0.0.1:{0}", "127.0.0.1:65536")


def endpoints() -> Iterator[Case]:
    """Those that are none. Others stand in the cases."""
    for members in NO_ENDPOINTS:
        yield Case(f"no endpoints: {members!r}", ends("endpoints"), 5, members)


def elsewhere(data: bytes, then: str = DROPPED, piece: int = 0) -> list[Step]:
    """This is no answer of the first member, so the second one is asked, and refuses the attach."""
    return [Asks(RANGE, LOOK, Answer(data, then, piece)), replace(looks(NO_HEAD), member=1),
            with_answer(attaches(0, 0, ""), error(429)), *ends("full")]


def statuses() -> Iterator[Case]:
    for status, cause in ((400, "refused"), (404, "refused"), (499, "refused"), (429, "full")):
        yield Case(f"status {status}", [with_answer(looks(""), error(status)), *ends(cause)], 5)
    for status in (302, 408, 500, 503):
        yield Case(f"status {status}", elsewhere(error(status)), 5)
    for body in (b"\xFF", b"{", b""):
        data = b"HTTP/1.1 200 OK\r\nContent-Length: %d\r\n\r\n%s" % (len(body), body)
        yield Case(f"status 200, and {body!r} in place of JSON", elsewhere(data), 5)
    yield Case("an answer that is no HTTP", elsewhere(b"HTTP/3 yes\r\n\r\n"), 5)


def pieces() -> Iterator[Case]:
    """Both answers come in the same pieces: the attach has to say what the head said."""
    for form in (whole, chunked, trailed, continued):
        for piece in (1, 7, 4096):
            steps = [with_answer(looks(""), form(found(3, "2 1 4099")), piece),
                     with_answer(attaches(3, 4099, ""), form('{"error":"full"}', 429), piece), *ends("full")]
            yield Case(f"an answer {form.__name__}, in pieces of {piece}", steps, 5)
        data = form(NO_HEAD)
        for end in (0, 20, len(data) - 1):
            yield Case(f"an answer {form.__name__}, cut at {end} of {len(data)}", elsewhere(data[:end], CUT, 16), 5)


def takeovers() -> Iterator[Case]:
    """Nothing is replied once another manager attached, or where etcd doesn't say that none did."""
    owner = Owner(2)
    before = [*begun(owner), Sends(("status",))]
    for body, cause, what in ((found(50, "0 0 22"), "taken", "attached"), (found(51, "50 1 22"), "taken", "has written"),
                              (found(owner.revision + 1, owner.head), "taken", "put the same head"),
                              (found(owner.revision, "of somebody"), "damaged", "put what is no head")):
        yield Case(f"no reply: another {what}", [*before, looks(body), Parts(), *ends(cause, 6)], 6)
    for status, cause in ((400, "refused"), (429, "full")):
        steps = [*before, with_answer(looks(""), error(status)), Parts(), *ends(cause, 6)]
        yield Case(f"no reply: a look is answered {status}", steps, 6)


def syncs_in_vain() -> Iterator[Case]:
    """A confirm isn't answered either, and neither is one of a piece whose first line wasn't."""
    for data, cause in ((whole(fenced(50, "0 0 22")), "taken"), (error(429), "full"), (error(400), "refused")):
        owner = Owner(2)
        steps = [*granted(owner), Sends(("confirm 1-1",)), with_answer(owner.sync(CONFIRMED[0], 0), data), Parts(),
                 *ends(cause)]
        yield Case(f"no reply: a confirm ends with etcd {cause}", steps, 5)
    owner = Owner(2)
    taken = whole(fenced(50, "0 0 22"))
    steps = [*granted(owner), Sends(("status", "confirm 1-1")), looks(found(50, "0 0 22")),
             with_answer(owner.sync(CONFIRMED[0], 0), taken), Parts(), *ends("taken")]
    yield Case("no reply: a confirm behind a look that told of another", steps, 5)


def silence() -> Iterator[Case]:
    """No member answers for ten seconds, or for less."""
    nobody = "127.0.0.1:{2},http://127.0.0.1:{2}"
    yield Case("nobody listens", [*ends("silent"), Patience()], 5, nobody, is_long=True)
    owner = Owner(2)
    steps = [*begun(owner), Sends(("status",)), Unanswered(owner.checks()), Parts(), *ends("silent", 6), Patience()]
    yield Case("no reply: a look isn't answered", steps, 6, is_long=True)
    owner = Owner(2)
    steps = [*granted(owner), Sends(("confirm 1-1",)), Unanswered(owner.sync(CONFIRMED[0], 0)), Parts(), *ends("silent"),
             Patience()]
    yield Case("no reply: a sync isn't answered", steps, 5, is_long=True)
    owner = Owner(2)
    before = [*begun(owner), Sends(("may b",))]
    tries = [Answer(b"", DROPPED), Answer(error(503), DROPPED), Answer(b"", CUT), Answer(whole("")[:20], DROPPED)]
    asked = [replace(owner.checks(), answer=answer, member=number % 2) for number, answer in enumerate(tries)]
    steps = [*before, *asked, owner.checks(), Hears("no"), *stops(owner)]
    yield Case("a look is answered late", steps, 0, is_long=True)


def cases() -> list[Case]:
    kinds = (a_new_journal, a_file_of_two_blocks, heads_that_are_none, transactions, a_sync_whose_answer_is_lost,
             blocks_that_are_none, endpoints, statuses, pieces, takeovers, syncs_in_vain, silence)
    return [case for kind in kinds for case in kind()]
