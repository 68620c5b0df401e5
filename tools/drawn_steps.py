"""The program as a process that is asked line by line, and steps with their dependence, worked out from its definition.

For drawn.py, which draws sessions, and faults.py.
"""
import subprocess

LISTS = ("items", "history", "plan", "rollback", "drive", "work", "held")


class Difference(Exception):
    """What isn't as the headline says."""


# ---- The program ----


def replies_of(lines, next_line):
    """Reads the reply of each line: its own lines, as a list."""
    replies = []
    for line in lines:
        if not line:
            replies.append([])
            continue
        reply = [next_line(line)]
        if reply[0].startswith("ok ") and line.split(" ", 1)[0] in LISTS:
            reply += [next_line(line) for _ in range(int(reply[0][3:]))]
        replies.append(reply)
    return replies


def bytes_of(lines):
    return "".join(line + "\n" for line in lines).encode("utf-8", "surrogateescape")


class Session:
    """A process that is asked line by line."""

    def __init__(self, program, words=()):
        self.process = subprocess.Popen([program, *words], stdin=subprocess.PIPE, stdout=subprocess.PIPE, bufsize=-1)

    def next_line(self, asked):
        line = self.process.stdout.readline()
        if not line.endswith(b"\n"):
            raise Difference(f"the program ended at: {asked[:200]}")
        return line[:-1].decode("utf-8")

    def ask(self, lines):
        try:
            self.process.stdin.write(bytes_of(lines))
            self.process.stdin.flush()
        except BrokenPipeError:
            raise Difference("the program ended") from None
        return replies_of(lines, self.next_line)

    def close(self):
        try:
            self.process.stdin.close()
        except BrokenPipeError:
            pass
        self.process.stdout.close()
        return self.process.wait()

    def __enter__(self):
        return self

    def __exit__(self, *_):
        self.close()


def served(program, lines, words=()):
    """The replies of a whole session, given at once."""
    done = subprocess.run([program, *words], input=bytes_of(lines), stdout=subprocess.PIPE, check=False)
    if done.returncode != 0:
        raise Difference(f"a session ended with status {done.returncode}")
    left = iter(done.stdout.decode("utf-8").split("\n"))
    replies = replies_of(lines, lambda _: next(left))
    if list(left) != [""]:
        raise Difference("a session wrote more than its replies")
    return replies


# ---- Steps, and which depends on which ----


class Step:
    """A step as its name, its kind and its access say: a key, and whether it was written. The first move of a branch has the bound of its Map."""

    def __init__(self, name, kind, access, bound=0):
        thread, no = name.rsplit("#", 1)
        self.name, self.kind, self.access, self.bound = name, kind, access, bound
        self.path, self.no = path_of(thread), int(no)

    def waited_for(self, path):
        """Whether this is the first move of a branch that waits until the one with this thread in it is done."""
        above = self.path[:-1]
        if not self.bound or len(path) <= len(above) or path[: len(above)] != above:
            return False
        (fork, branch), (other, earlier) = self.path[-1], path[len(above)]
        return other == fork and earlier + self.bound <= branch


def path_of(thread):
    execution, *branches = thread.split("/")
    return (execution, *(tuple(map(int, branch.split("."))) for branch in branches))


def lies_under(path, thread, fork):
    """Whether a thread lies under the fork that step `fork` of another made, at any depth."""
    return len(path) > len(thread) and path[: len(thread)] == thread and path[len(thread)][0] == fork


def depends(later, earlier):
    if later.path == earlier.path:
        return True
    if earlier.no == 0 and earlier.path == later.path[:1]:
        return True
    if earlier.kind == "fork" and lies_under(later.path, earlier.path, earlier.no):
        return True
    if later.kind in ("join", "terminate") and lies_under(earlier.path, later.path, later.no - 1):
        return True
    if later.waited_for(earlier.path):
        return True
    if later.access and earlier.access and later.access[0] == earlier.access[0]:
        return later.access[1] or earlier.access[1]
    return False


class Dependence:
    """Of a list of steps: whom each one depends on directly."""

    def __init__(self, steps):
        self.steps = steps
        self.on = [sum(1 << a for a in range(b) if depends(steps[b], steps[a])) for b in range(len(steps))]

    def plan(self, at):
        """The least set with a step that holds each later one which depends directly on a member: the latest first."""
        held = 1 << at
        for later in range(at + 1, len(self.steps)):
            if self.on[later] & held:
                held |= 1 << later
        return [place for place in range(len(self.steps) - 1, at - 1, -1) if held >> place & 1]

    def first_dependent(self, at):
        return next((later for later in range(at + 1, len(self.steps)) if self.on[later] >> at & 1), None)

    def drawn_order(self, chance, places=None):
        """These places, or all, in an order drawn from those that keep dependent ones as they are."""
        left = list(range(len(self.steps))) if places is None else sorted(places)
        mask, order = sum(1 << place for place in left), []
        while left:
            free = [place for place in left if not self.on[place] & mask]
            place = chance.choice(free)
            left.remove(place)
            mask &= ~(1 << place)
            order.append(place)
        return order
