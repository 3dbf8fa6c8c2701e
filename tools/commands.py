"""The commands of the program, as its help and README.md say them; tools/check_readme.py compares the two."""
import textwrap
from typing import NamedTuple

STATUSES = {
    0: "all is written",
    1: "all is written, and a step was found that is denied or idle, an equation that is loose or strict, a remark, or a "
       "new station that does not extend the old one",
    2: "the words are not those of a command",
    3: "a file, the input or the device could not be read",
    4: "the output or the device could not be written",
    5: "the drawing is refused",
    6: "another input is refused",
    7: "the log breaks a premise of the outside",
    8: "there was not enough memory",
    9: "more than 1,000,000 lines",
    70: "of the script: the checked build gave no answer",
    127: "of the script: neither the proved program nor the Rattle kit is here",
}
# Those with which every command may end.
OF_ALL = {0, 2, 4, 8, 70, 127}


class Command(NamedTuple):
    """A command: its words as README.md has them; what it does, in a few words; what README.md says that it answers; its
    statuses beside those of all; the places of the words that name files; and what its help says."""
    forms: str
    does: str
    answer: str
    statuses: set
    files: tuple
    # what its help says in place of README.md's words, where it says more
    more: str = ""

    def words(self):
        return self.forms.split("`")[1]

    def name(self):
        return self.words().split()[0]


ROWS = [
    Command("`station STATION`", "the station as it was read, with remarks",
            "the station as it was read, with a remark for each thing that is likely not meant", {1, 3, 5}, (1,),
            "the station as it was read, in document order: each part, node, switch, link and tap in a line, its fields "
            "parted by tabs; then a line for each thing that is likely not meant; then counts. docs/DRAWINGS.md says what "
            "each remark means"),
    Command("`check STATION POSITIONS`", "both releases of each switch",
            "for each switch both releases, and a reading for each denial", {3, 5, 6}, (1, 2)),
    Command("`explain STATION POSITIONS open SWITCH`, or `close`; or `explain STATION POSITIONS`",
            "why one operation is released or denied",
            "that one operation is released, or by which ways it is not; without an operation, of each that is denied by "
            "which ways it is", {3, 5, 6}, (1, 2),
            "that one operation is released, or why not: the way by which a node is energised (`live`), the way "
            "by which it is earthed (`earthed`), or the load on both sides (`tap`) and all that is bonded to the "
            "first side (`bonded`), among which the second is not. Without an operation, this of each that is denied, in "
            "document order, opening before closing; released ones are left out"),
    Command("`why STATION POSITIONS open SWITCH`, or `close`", "the same for people, by the devices",
            "the same for people: what joins each two nodes of a way, and which unknown positions do not matter alone",
            {3, 5, 6}, (1, 2),
            "as `explain`, with a line for the device between each two nodes of a way (`over PATH`; `over open PATH` for a "
            "breaker that stands open and counts as closed; `over link PATH` with the bay of a link), and a line "
            "`whatever PATH` for each switch with which the operation is denied both where it is off and where it is on"),
    Command("`state STATION POSITIONS`", "which nodes are live and which earthed",
            "for each node whether it is live and earthed, over every reading of the positions", {3, 5, 6}, (1, 2),
            "for each node a line `VOLTAGE EARTH PATH`: `live`, `dead` or `unknown`, and `earthed`, `free` or "
            "`unknown`, over every reading of the positions"),
    Command("`order STATION POSITIONS ORDER`", "a switching order, judged in advance",
            "each step of a switching order: `ok`, `denied` or `idle`; and whether it can be undone", {1, 3, 5, 6}, (1, 2, 3),
            "each step of a switching order, judged from the positions after those before it: `ok`, `denied` with"
            " its rule, or `idle`; where all are ok, also whether the order can be undone"),
    Command("`replay STATION LOG`", "what every bay does over a log",
            "what every bay does over a log of commands, readings, drives and messages", {3, 5, 6, 7}, (1, 2),
            "what every bay of the station does over a log of commands, readings, drives, and messages that are "
            "delivered, lost, repeated or cut: who was granted what, in which line"),
    Command("`trips STATION LOG`", "the same of a log in which breakers may trip",
            "the same, where protection may open breakers at any moment (`trip` records)", {3, 5, 6, 7}, (1, 2)),
    Command("`plan STATION`", "who must talk to whom, as JSON",
            "who must talk to whom, as JSON: for each bay the bays whose positions can change an answer for it", {3, 5}, (1,),
            "who must talk to whom, as JSON: for each bay exactly the bays whose positions can change an answer "
            "for one of its operations"),
    Command("`program STATION`, or `program STATION BAY`", "the interlocking as structured text for a controller",
            "the releases of every switch as structured text of IEC 61131-3; or the blocks of one bay alone",
            {3, 5, 6}, (1,),
            "the releases of every switch as function blocks of structured text (IEC 61131-3) and a program that calls "
            "them: assignments of AND, OR and NOT alone, from the two contacts of each switch. With BAY, the blocks of "
            "that bay alone, and how many BOOLs it exchanges with others"),
    Command("`compile STATION`", "the release equations of the whole station",
            "the release equations of the whole station as one text, whose meaning is the rules", {3, 5}, (1,)),
    Command("`audit STATION EQUATIONS`", "hand-written equations held against the rules",
            "each hand-written equation held against the rules: `same`, `loose` or `strict`", {1, 3, 5, 6}, (1, 2),
            "each hand-written equation held against the rules: `same`, `loose` with a vector in which it "
            "releases what they forbid, or `strict` with a position in which it denies what they allow"),
    Command("`compare OLD NEW`", "what an extension changes",
            "for each operation whether NEW judges it as OLD does, with a position that shows each change",
            {1, 3, 5}, (1, 2),
            "for each operation of both stations whether NEW judges it as OLD does: `same`; `kept`, where it differs, but "
            "not while every switch that only one of them has is open; `changed`; `new` or `gone`. Below, `stricter R` "
            "(OLD releases what rule R of NEW forbids: an equation left as it was is dangerous) and `looser R`, each with "
            "the switches that are closed in one such position. Then each bay with its worst word"),
    Command("`tests STATION BAY`, or `tests STATION`", "a test protocol for commissioning",
            "positions and single moves that test a bay's releases, and leave no dependence out; without BAY those of each "
            "bay that is not like an earlier one", {3, 5, 6}, (1,),
            "without BAY the tests of each bay that is not seen to be like an earlier one, and below it the later bays that "
            "are like it. Of a bay: what is always released, which switches of other bays the bay needs, and then positions with single moves: for "
            "each operation and each switch on which its release depends a move that turns it, and for each rule that the "
            "operation can break a position that shows it; none is left out"),
    Command("`node STATION BAY`", "one bay's controller, over lines",
            "one bay's controller: commands, readings and messages in, outcomes and messages out, as lines", {3, 5, 6, 9}, (1,),
            "one bay's controller: commands, readings and messages come in as lines, outcomes and messages go "
            "out, each line answered before the next is asked for"),
    # The file of `stored` is written, so that only the proved program runs it.
    Command("`stored STATION BAY FILE`", "the same, with its record kept in a file",
            "the same, with its record in FILE: it may be switched off at any moment, and goes on from there", {3, 5, 6, 9}, (),
            "the same, with what the bay must not forget kept in FILE: before a line's text is written, what it "
            "changed is there. It may be switched off at any moment, and goes on from FILE"),
    Command("`make NUMBER station`, `positions` or `log`", "a generated station, its positions or its log",
            "a double busbar with a coupler and 2 to 60 feeders, to try the program on", set(), ()),
    Command("`work NUMBER`", "a generated station at work, in four lines",
            "the same station at work, in four lines", set(), (),
            "the same station at work, in four lines: how large it is, how many operations are released where "
            "every position is known and where each bay knows its own alone, and what came of its log"),
]
COMMANDS = {row.name(): row for row in ROWS}


def table():
    """The rows of README.md's table."""
    return [f"| {row.forms} | {row.answer} |" for row in ROWS]


def overview():
    """All commands, one a line."""
    return "\n".join(f"    {row.words():38} {row.does}" for row in ROWS)


def help_text(name):
    """The words of a command, what it answers, and its statuses."""
    row = COMMANDS[name]
    ends = "\n".join(f"    {status:3}  {STATUSES[status]}" for status in sorted(OF_ALL | row.statuses))
    answer = textwrap.fill((row.more or row.answer).replace("`", ""), 100)
    return f"{row.forms.replace('`', '')}\n\n{answer}\n\nStatuses:\n{ends}"
