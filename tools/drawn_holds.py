"""What a hold lets go on, worked out from outside: by the remaining steps of a session of drawn.py, and by which depends on which."""
import re

from drawn_steps import Session, depends, path_of

COUNT = re.compile("[1-9][0-9]{0,4}")
MOST = 65536


class Hold:
    """A step that is held. What is left of it and its consequences stands in the order in which it was taken."""

    def __init__(self, checked, name):
        dependence = checked.dependence
        plan = dependence.plan(checked.history.index(name))
        self.name, self.left = name, [dependence.steps[place] for place in reversed(plan)]

    def names(self):
        """What is left, the latest first."""
        return [step.name for step in reversed(self.left)]

    def first_needed(self, step):
        """The earliest that is left of those on which a step would depend directly."""
        return next((other.name for other in self.left if depends(step, other)), None)

    def after(self, history):
        """The hold once these steps remain, if it stands then."""
        self.left = [step for step in self.left if step.name in history]
        return self if self.name in history else None


class Ahead(Session):
    """A process with the remaining steps and without the hold, in which moves are tried."""

    def __init__(self, checked):
        super().__init__(checked.program)
        self.checked, self.forks = checked, dict(checked.forks)
        self.ask(checked.forward_lines(checked.history))

    def tried(self, thread):
        """What a step of a thread is told here, and the step that it is."""
        (shown,), (_, *items), (reply,) = self.ask(["show " + thread, "items", "step " + thread])
        if not reply.startswith("ok "):
            return reply, None
        _, name, kind = reply.split(" ")
        return reply, self.checked.step_of(name, kind, shown, items, self.forks)

    def driven(self, hold, most):
        """The steps that a drive takes, which passes by what is held."""
        taken, passed = [], set()
        while len(taken) < most:
            shown = self.checked.threads(self)
            ready = sorted((thread for thread in shown if thread not in passed and can_move(thread, shown)), key=path_of)
            for thread in ready:
                _, step = self.tried(thread)
                if step is None:
                    # a branch that waits until an earlier one is done
                    continue
                if hold.first_needed(step) is None:
                    taken.append(step.name)
                    break
                passed.add(thread)
                self.ask(["undo " + step.name])
            else:
                break
        return taken


def can_move(thread, shown):
    """Whether a thread has a move, but for a branch that waits until an earlier one is done."""
    state = shown[thread]
    if state.startswith("ok ready "):
        return True
    if not state.startswith("ok parked "):
        return False
    *_, count, branches = state.split(" ")
    below = [shown.get(f"{thread}/{count}.{branch}", "") for branch in range(int(branches))]
    return all(state.startswith("ok done ") for state in below) or any(state.startswith("ok failed ") for state in below)


def listed(names):
    return [f"ok {len(names)}", *names]


def wanted_reply(checked, line):
    """The reply that a line has to have by what is held, or None where a hold has nothing to say."""
    word, _, rest = line.partition(" ")
    hold = checked.hold
    if not checked.first:
        return None
    if line == "held":
        return listed(checked.left())
    if word == "hold":
        return wanted_of_hold(checked, rest)
    if hold is None:
        return None
    if line == "settle":
        return [f"no 13 {hold.name}"]
    if word == "step":
        return wanted_of_step(checked, rest)
    if word == "drive" and COUNT.fullmatch(rest) and int(rest) <= MOST:
        checked.check_forward()
        with Ahead(checked) as ahead:
            return listed(ahead.driven(hold, int(rest)))
    return None


def wanted_of_hold(checked, name):
    if name not in checked.history:
        return ["no 12"] if name in checked.base else None
    if checked.hold:
        return [f"no 13 {checked.hold.name}"]
    checked.check_forward()
    return [f"ok {len(checked.dependence.plan(checked.history.index(name)))}"]


def wanted_of_step(checked, thread):
    checked.check_forward()
    with Ahead(checked) as ahead:
        reply, step = ahead.tried(thread)
    first = checked.hold.first_needed(step) if step else None
    return [reply] if first is None else [f"no 13 {first}"]
