"""Reads the pages of rollback_graph, and compares them with its pictures for Graphviz and with what a session says. For graph_rows.py."""
import base64
import collections
import hashlib
import html.parser
import json
import re

from drawn_steps import Difference

VOID = ("meta", "link")
HEADS = ["Step", "Kind", "State", "Key", "Went to", "Depends on"]


def ensure(holds, why):
    if not holds:
        raise Difference(why)


class Reader(html.parser.HTMLParser):
    """The elements of a page in their order, each with its attributes and all its text. Every element has to be closed in its turn."""

    def __init__(self, text):
        super().__init__(convert_charrefs=True)
        self.open, self.found = [], []
        self.feed(text)
        self.close()
        ensure(not self.open, f"not closed: {self.open}")

    def handle_starttag(self, tag, attributes):
        element = {"tag": tag, "text": "", **dict(attributes)}
        self.found.append(element)
        if tag not in VOID:
            self.open.append(element)

    def handle_endtag(self, tag):
        ensure(self.open and self.open[-1]["tag"] == tag, f"</{tag}> within {[one['tag'] for one in self.open]}")
        self.open.pop()

    def handle_data(self, data):
        for element in self.open:
            element["text"] += data


class Page:
    """A page that was read: its data, and the rows of its table."""

    def __init__(self, text):
        elements = Reader(text).found
        by_tag = collections.defaultdict(list)
        for element in elements:
            by_tag[element["tag"]].append(element)
        ensure(text.startswith("<!DOCTYPE html>\n") and text.endswith("</body>\n</html>\n"), "no whole page")
        ensure(len(by_tag["script"]) == 2 and len(by_tag["style"]) == 1, "another script or style")
        book, script = by_tag["script"]
        ensure(book.get("type") == "application/json" and book.get("id") == "book", "no data")
        ensure("<" not in book["text"], "a tag in the data")
        self.data, self.title = json.loads(book["text"]), by_tag["title"][0]["text"]
        self.check_policy(by_tag["meta"], script["text"], by_tag["style"][0]["text"])
        self.check_elements(elements)
        cells = [element["text"] for element in by_tag["td"]]
        ensure([element["text"] for element in by_tag["th"]] == HEADS, "other heads of the table")
        self.rows = [cells[at : at + len(HEADS)] for at in range(0, len(cells), len(HEADS))]

    @staticmethod
    def check_policy(metas, script, style):
        """The page may run its own script and style alone, by their digests."""
        (policy,) = (meta["content"] for meta in metas if meta.get("http-equiv") == "Content-Security-Policy")
        for kind, text in (("script", script), ("style", style)):
            digest = base64.b64encode(hashlib.sha256(text.encode()).digest()).decode()
            ensure(f"{kind}-src 'sha256-{digest}'" in policy, f"another digest of the {kind}")
        ensure(policy.startswith("default-src 'none';"), f"another policy: {policy}")

    @staticmethod
    def check_elements(elements):
        """Nothing is loaded, and no text of a journal made an element."""
        known = {"html", "head", "meta", "title", "link", "style", "body", "noscript", "h1", "table", "tr", "th", "td", "script"}
        for element in elements:
            ensure(element["tag"] in known, f"an element {element['tag']}")
            for name, value in element.items():
                ensure(name != "src" and not name.startswith("on"), f"an attribute {name}")
                ensure(name != "href" or value == "data:,", f"a link to {value}")


def words_of(row):
    """What a step is, as a picture has it."""
    if row["access"] is None:
        return row["kind"]
    ((kind, text),) = ((kind, text) for value in row["key"].values() for kind, text in value.items())
    return f"call {'writes' if row['access'] == 'write' else 'reads'} {json.dumps({kind: text}, separators=(',', ':'), ensure_ascii=False)}"


def cells_of(row):
    outcome = row["outcome"]
    went = [outcome["to"], *(str(outcome[name]) for name in ("state", "error", "branches") if name in outcome)]
    key = "" if row["key"] is None else f"{row['access']} {json.dumps(row['key'], separators=(',', ':'), ensure_ascii=False)}"
    causes = ", ".join(f"{cause['step']} ({cause['reason']})" for cause in row["on"])
    return [row["step"], row["kind"], row["state"] or "", key, " ".join(went), causes]


def lies_in(step, fork, last):
    """Whether a step is of one of a fork's branches up to one; the fork as a barrier names it."""
    above, _, number = fork.removeprefix("barrier ").rpartition("#")
    found = re.match(rf"{re.escape(above)}/{number}\.(\d+)#", step)
    return found is not None and int(found[1]) <= last


def check_waits(rows, graph, bounds):
    """The branches for which first moves waited are the barriers before them, and a step at a `bound` leads through its barrier."""
    barriers = {}
    for row in rows:
        if "waited" in row:
            fork, _, branch = row["waited"].rpartition(".")
            above, _, number = fork.rpartition("/")
            barriers[row["step"]] = f"barrier {above}#{number} {branch}"
    for step, found in graph.behind.items():
        ensure(found == [barriers.get(step)], f"{step} waited for another branch than at {found}")
    for step, barrier in barriers.items():
        fork = barrier.rpartition(" ")[0]
        is_shown = any(lies_in(name, fork, int(barrier.rpartition(" ")[2])) for name in graph.nodes)
        ensure((step in graph.behind) == is_shown, f"{step} waited, and has {graph.behind.get(step)} before it")
    for earlier, later in bounds:
        ensure(earlier in graph.waited(later), f"{later} depends on {earlier} by no barrier")
    ensure(len({later for _, later in bounds}) == len(bounds), "two branches of one bound")


def check_page(text, graph, step=None):
    """A page against the whole picture for Graphviz: the same steps and dependences, in the data and in the table."""
    page = Page(text)
    rows = page.data["steps"]["steps"]
    ensure({row["step"]: words_of(row) for row in rows} == graph.nodes, "other steps than nodes")
    found = {(cause["step"], row["step"]): cause["reason"] for row in rows for cause in row["on"]}
    drawn = {pair: why for pair, why in found.items() if why != "bound"}
    ensure(drawn == {pair: label.split(" ")[0] for pair, label in graph.edges.items()}, "other dependences than edges")
    check_waits(rows, graph, {pair for pair, why in found.items() if why == "bound"})
    ensure(page.data["show"] == step, f"opens at {page.data['show']}")
    ensure(page.title == (page.data["name"] if step is None else f"{page.data['name']}: {step}"), f"another title: {page.title}")
    ensure(page.rows == [cells_of(row) for row in rows], "other rows of the table")
    executions = {row["execution"] for row in page.data["list"]["executions"]}
    ensure({name.partition("#")[0].partition("/")[0] for name in graph.nodes} <= executions, "an execution lacks")
    return page


# ---- what was before and after each step


def shown(frame):
    """A frame as `show` answers it, but for a Map's or a Parallel's count of branches."""
    if frame["phase"] == "done":
        return f"done {json.dumps(frame['output'], separators=(',', ':'), ensure_ascii=False)}"
    if frame["phase"] == "failed":
        return f"failed {json.dumps(frame['error'], ensure_ascii=False)} {json.dumps(frame['cause'], ensure_ascii=False)}"
    text = f"{frame['phase']} {json.dumps(frame['state'], ensure_ascii=False)} {frame['moves']}"
    return f"{text} {frame['branches']}" if frame["phase"] == "parked" else text


def check_changes(page, threads, items):
    """What a page says of frames and items: each begins as the step before it of that thread or key left it, and the last one left
    what the session shows."""
    frames, left = {}, {}
    for row in page.data["steps"]["steps"]:
        name, thread, before, after = row["step"], row["thread"], row["frames"]["before"], row["frames"]["after"]
        ensure(before == frames.get(thread, before), f"{name} begins otherwise than the step before it ended: {before}")
        ensure((before is None) == (row["kind"] == "start"), f"before {name}: {before}")
        ensure(row["state"] == (None if before is None else before["state"]), f"the state of {name}: {row['state']}")
        frames[thread] = after
        if row["key"] is None:
            ensure(row["items"] is None, f"{name} has an item")
            continue
        key, item = json.dumps(row["key"], sort_keys=True), row["items"]
        ensure(item["before"] == left.get(key, item["before"]), f"{name} finds {item['before']}, and {left.get(key)} was left")
        ensure(row["access"] == "write" or item["before"] == item["after"], f"{name} reads {item['before']} and leaves {item['after']}")
        left[key] = item["after"]
    for thread, frame in frames.items():
        ensure(thread not in threads or shown(frame) == threads[thread], f"{thread} is at {frame}, shown {threads.get(thread)}")
    now = {json.dumps({"id": item["id"]}, sort_keys=True): item for item in map(json.loads, items)}
    for key, item in left.items():
        ensure(item == now.get(key), f"{key} is {item}, wanted {now.get(key)}")
