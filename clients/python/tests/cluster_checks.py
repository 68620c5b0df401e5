"""What has to hold of the log, of all that callers were told, and of the books after a trial."""
import collections
import hashlib
import sqlite3
import subprocess
from contextlib import closing

from tests.cluster_callers import SETUP
from tests.program import PROGRAM, read_reply

KEPT = ("table", "define", "start", "step", "undo", "rollback", "settle", "hold")


class Alone:
    """The program by itself, in memory, which is given the log's lines."""

    def __init__(self):
        self.process = subprocess.Popen([PROGRAM], stdin=subprocess.PIPE, stdout=subprocess.PIPE)

    def ask(self, line):
        """The reply as one text."""
        self.process.stdin.write(line.encode() + b"\n")
        self.process.stdin.flush()
        return "\n".join(read_reply(self.process.stdout, line.split(" ", 1)[0]))

    def end(self):
        """Ends it."""
        self.process.communicate()


def hash_of(line, reply):
    """The hash that the log has of a reply: of a step its name alone counts."""
    said = reply.rsplit(" ", 1)[0] if line.startswith("step ") else reply
    return hashlib.sha256(said.encode()).hexdigest()


async def check(cluster, said, setup=tuple(SETUP)):
    """Everything. Gives in words how much was looked at."""
    lines, terms = await log_lines(cluster)
    alone = Alone()
    replies = [alone.ask(line) for _, line in lines]
    for number, ((wanted, line), reply) in enumerate(zip(lines, replies)):
        assert reply.startswith("ok"), f"line {number} of the log, {line}, is refused: {reply}"
        assert hash_of(line, reply) == wanted, f"line {number} of the log has the hash of another reply"
    assert [line for _, line in lines[: len(setup)]] == list(setup)
    entries = [(number, line, reply) for number, ((_, line), reply) in enumerate(zip(lines, replies))]
    placed = place_all(said, entries[len(setup) :])
    keeps_real_time(placed)
    reads = reads_are_true(said)
    for question in ("history", "items"):
        wanted = alone.ask(question)
        for number in range(3):
            assert await cluster.ask(number, question) == wanted, f"server {number} answers {question} otherwise"
    alone.end()
    refused = collections.Counter(each.reply.split(" ")[2] for each in said if (each.reply or "").startswith("no 40"))
    left_open = sum(1 for each in said if each.reply is None)
    return (
        f"{len(lines)} lines of {terms} terms in the log, {len(placed)} of them told to callers, {reads} counts read, "
        f"{left_open} lines left open, refused: {dict(refused)}"
    )


async def log_lines(cluster):
    """The log's lines with their hashes, and the number of its terms. A batch begins where the one before ends."""
    lines, terms = [], set()
    for number, term, entries in await cluster.batches():
        assert number == len(lines), f"the log has a gap at {number}"
        lines += entries
        terms.add(term)
    return lines, len(terms)


def place_all(said, entries):
    """The place in the log of each line that was answered by `ok`. Each stands there once, and nothing else does.

    The lines of a caller's own executions are matched in its order. Steps of the execution that all share are known by their numbers.
    """
    placed = {}
    shared = {reply: number for number, line, reply in entries if line == "step shared"}
    sent = 0
    by_caller = collections.defaultdict(list)
    for each in said:
        by_caller[each.caller].append(each)
    own_lines = 0
    for caller, of_caller in by_caller.items():
        own = [each for each in of_caller if each.word in KEPT and each.line != "step shared" and not each.is_refused]
        lines = [entry for entry in entries if entry[1].split(" ")[1].startswith(caller + "-")]
        own_lines += len(lines)
        placed.update(matched(caller, own, lines))
        for each in of_caller:
            if each.line == "step shared" and not each.is_refused:
                sent += 1
                if each.reply is not None:
                    assert each.reply in shared, f"{each} isn't in the log"
                    assert shared[each.reply] not in placed, f"{each} was told to two callers"
                    placed[shared[each.reply]] = each
    assert len(shared) <= sent, "the log has steps that nobody sent, or that were refused"
    assert own_lines + len(shared) == len(entries), "the log has lines of nobody"
    return placed


def matched(caller, said, lines):
    """The places of a caller's lines. One without a reply has a place or none; each of the log's lines is one of these."""
    reached = [{0}]  # how many of the log's lines may be those that were said so far
    for each in said:
        found = set()
        for at in reached[-1]:
            if each.reply is None:
                found.add(at)
            if at < len(lines) and fits(each, lines[at]):
                found.add(at + 1)
        assert found, f"{each} isn't in the log at its place, or more than once"
        reached.append(found)
    at = len(lines)
    assert at in reached[-1], f"the log has lines that {caller} never sent, or was refused"
    placed = {}
    for number in range(len(said) - 1, -1, -1):
        if at and at - 1 in reached[number] and fits(said[number], lines[at - 1]):
            at -= 1
            if said[number].reply is not None:
                placed[lines[at][0]] = said[number]
    return placed


def fits(each, entry):
    """Whether what was said and told may be this line of the log."""
    return entry[1] == each.line and each.reply in (None, entry[2])


def keeps_real_time(placed):
    """A line that was answered before another was sent stands before it."""
    least = float("inf")
    for place in sorted(placed, reverse=True):
        assert placed[place].sent < least, f"{placed[place]} was sent when a later line of the log had been answered"
        least = min(least, placed[place].answered)


def reads_are_true(said):
    """Each `show shared` tells a count that held at some time between question and reply. Gives how many there are."""
    steps = [each for each in said if each.line == "step shared" and not each.is_refused]
    reads = [each for each in said if each.line == "show shared" and (each.reply or "").startswith("ok")]
    for each in reads:
        told = int(each.reply.rsplit(" ", 1)[1])
        known = max((count_of(step) for step in steps if step.reply and step.answered < each.sent), default=0)
        begun = sum(1 for step in steps if step.sent < each.answered)
        assert known <= told <= begun, f"{each}: the count was {known} to {begun}"
    return len(reads)


def count_of(step):
    """The number of a step."""
    return int(step.reply.split("#")[1].split(" ")[0])


def journals_agree(cluster):
    """The journals of servers that have ended have the same rows."""
    found = []
    for number in range(3):
        with closing(sqlite3.connect(cluster.journal(number))) as file:
            found.append(file.execute("select no, line from entry order by no").fetchall())
    assert found[0] == found[1] == found[2], "the journals differ"
