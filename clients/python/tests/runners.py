"""Runners with a clock of their own, for the tests of the runner."""
import contextlib
import select
import threading
import time

from rollback_client.runner.alone import Alone, Clock
from rollback_client.runner.clock_file import ClockFile
from rollback_client.runner.running import Options
from tests.program import PATIENCE

NOON = 1_795_435_200.0
RESOURCE = "arn:aws:states:::dynamodb:"


class Stopped(Exception):
    """The test has ended the runner."""


class OwnClock(Clock):
    """A clock that goes on only if the runner sleeps, and no further than the test lets it."""

    def __init__(self, now=NOON):
        self.time = self.limit = now
        self.jumps = []  # the moments for which it slept
        self.idles = 0  # how often it had nothing to do until the limit
        self.is_stopped = False

    def now(self):
        return self.time

    def sleep(self, until, most, heard):
        if self.is_stopped:
            raise Stopped
        limit = self.limit  # once, since the test moves it meanwhile
        if until is not None and until <= limit:
            if until > self.time:
                self.time = until
                self.jumps.append(until)
            return
        self.time = limit
        self.idles += 1
        select.select([heard], [], [], 0.002)


class Run:
    """A runner in a thread of this process."""

    def __init__(self, address, clock=None, file=None, wait=0.0, **options):
        self.clock, self.said, self.fault = clock or OwnClock(), [], None
        self.thread = threading.Thread(target=self._run, args=(address, file, wait, Options(**options)), daemon=True)
        self.thread.start()

    def _run(self, address, path, wait, options):
        file = ClockFile(path, self.said.append)
        try:
            Alone(address, options, file, wait, self.said.append, self.clock).run()
        except Stopped:
            pass
        except Exception as fault:
            self.fault = fault
        finally:
            file.close()

    def until(self, limit):
        """Lets the clock go on to a moment after noon, and waits until nothing is to be done before it.

        The runner comes to rest before the clock goes on: so what was given to the book by now happens at the moment that it has now.
        """
        self.rest()
        self.clock.limit = NOON + limit
        self.rest()

    def rest(self):
        """Waits until the runner has done all that is to be done now.

        Before each sleep it asks what was accepted. The next sleep may follow a question from before this call, and the one after doesn't.
        """
        ends, before = time.monotonic() + PATIENCE, self.clock.idles
        while self.clock.idles < before + 2:
            if self.fault is not None:
                raise self.fault
            assert time.monotonic() < ends, "the runner doesn't come to rest"
            time.sleep(0.002)

    @property
    def jumps(self):
        """The moments for which it slept, in seconds after noon."""
        return [round(moment - NOON, 6) for moment in self.clock.jumps]

    def stop(self):
        self.clock.is_stopped = True
        self.thread.join(PATIENCE)


@contextlib.contextmanager
def running(address, **more):
    run = Run(address, **more)
    try:
        yield run
    finally:
        run.stop()


# ---- machines


def chain(*states):
    """A machine of these states, S0 S1 .. one after another."""
    names = [f"S{number}" for number in range(len(states))]
    following = [{"Next": name} for name in names[1:]] + [{"End": True}]
    ends = ("Choice", "Succeed", "Fail")
    made = {
        name: state if state["Type"] in ends or "Next" in state else {**state, **after}
        for name, state, after in zip(names, states, following)
    }
    return {"StartAt": "S0", "States": made}


def wait(**fields):
    return {"Type": "Wait", **fields}


def put(key, value="v", **more):
    item = {"id": {"S": key}, "v": {"S": value}}
    return {
        "Type": "Task",
        "Resource": RESOURCE + "putItem",
        "Parameters": {"TableName": "items", "Item": item, **more.pop("call", {})},
        "ResultPath": None,
        **more,
    }


def get(key, **more):
    parameters = {"TableName": "items", "Key": {"id": {"S": key}}}
    return {"Type": "Task", "Resource": RESOURCE + "getItem", "Parameters": parameters, **more}


def delete(key):
    parameters = {"TableName": "items", "Key": {"id": {"S": key}}}
    return {"Type": "Task", "Resource": RESOURCE + "deleteItem", "Parameters": parameters, "ResultPath": None}


PASSING = {"Type": "Pass"}
ABSENT = {"ConditionExpression": "attribute_not_exists(id)"}


def poller(seconds, key):
    """Waits, looks for an item, and waits again until it is there."""
    machine = chain(wait(Seconds=seconds), get(key, ResultPath="$.found"), {"Type": "Choice"}, {"Type": "Succeed"})
    machine["States"]["S2"] = {
        "Type": "Choice",
        "Choices": [{"Variable": "$.found.Item", "IsPresent": True, "Next": "S3"}],
        "Default": "S0",
    }
    return machine
