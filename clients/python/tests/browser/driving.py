"""One browser for all tests, and what is done in it: looking, waiting, clicking, typing.

A page lives: between two calls of a test it may be drawn anew, and a machine may take its time. So a test holds no element. It says by a
selector what it looks at, what is looked at is read in one call, and what is waited for is looked for again. A click is given again only
if no click has reached its element: one that has reached it, and does nothing, is a fault that the test then meets.
"""
import contextlib
import os
import pathlib
import subprocess
import time

from selenium import webdriver
from selenium.common import exceptions
from selenium.webdriver.chrome.options import Options
from selenium.webdriver.chrome.service import Service
from selenium.webdriver.common.action_chains import ActionChains
from selenium.webdriver.common.keys import Keys
from selenium.webdriver.remote.remote_connection import RemoteConnection

from rollback_client import Book
from tests.pages import WithPages
from tests.program import PATIENCE, PROGRAM, TOP, follower

WIDTH, HEIGHT = 1280, 800
# How long is waited at most, for a machine that does much else. Nothing that is there is waited for.
SECONDS = OF_A_PAGE = 600
OF_A_CALL = PATIENCE
CLICKABLE = "a, button, summary"
# What a driver says of an element or a page that was drawn anew, or is still to be drawn.
MOVED = (
    exceptions.StaleElementReferenceException,
    exceptions.ElementClickInterceptedException,
    exceptions.ElementNotInteractableException,
    exceptions.MoveTargetOutOfBoundsException,
    exceptions.NoSuchElementException,
    exceptions.JavascriptException,
)
# The same, where it has no class of its own.
MOVED_WORDS = (
    "does not belong to the document",
    "aborted by navigation",
    "execution context",
    "context with specified id",
    "node with given id",
    "loader has changed",
    "target frame detached",
)
# Elements that are in sight, and their texts, as a person reads them.
LOOK = """const isSeen = (found) => found.checkVisibility({ visibilityProperty: true }) && found.getClientRects().length > 0;
const seen = (selector) => [...document.querySelectorAll(selector)].filter(isSeen);
const textOf = (found) => (found.innerText ?? found.textContent).replace(/[^\\S\\n]+/g, " ").trim();
const isIt = (found, text, begins) => text === null || (begins ? textOf(found).startsWith(text) : textOf(found) === text);
const first = (selector, text, begins) => seen(selector).find((found) => isIt(found, text, begins)) || null;
"""
# An element whose next click is noticed. It is at the same place for some moments, or nothing is given.
AIMED = (
    LOOK
    + """const [selector, text, begins, done] = arguments;
const found = first(selector, text, begins);
const place = () => { const { x, y } = found.getBoundingClientRect(); return found.isConnected + " " + x + " " + y; };
if (found === null) {
    done(null);
} else {
    const before = place();
    setTimeout(() => {
        const note = (event) => {
            const reached = event.target.closest(selector);
            window.reached = reached !== null && isIt(reached, text, begins);
        };
        window.reached = found.disabled === true; // the browser gives such a one no click
        window.addEventListener("click", note, { capture: true, once: true });
        done(place() === before ? found : null);
    }, 40);
}"""
)
# Goes to an address within the page. `arrived` once the page has begun to draw it.
GO = """const [hash] = arguments, before = location.hash;
window.arrived = false;
addEventListener("hashchange", () => { window.arrived = true; }, { once: true });
location.hash = hash;
if (location.hash === before) window.arrived = true;"""
IS_DRAWN = "return document.querySelector('main[aria-busy]') === null"
_browser = None


def has_moved(fault):
    """Whether a fault of the driver says no more than that the page was drawn meanwhile."""
    said = str(fault).lower()
    return isinstance(fault, MOVED) or any(words in said for words in MOVED_WORDS)


def browser():
    """The browser, which is begun once, and anew if it has crashed."""
    global _browser
    if _browser is not None:
        try:
            _browser.get("about:blank")
        except exceptions.WebDriverException:
            quit_browser()
    if _browser is None:
        _browser = begun()
    size(WIDTH, HEIGHT)
    return _browser


def begun(times=3):
    """A new browser. On a busy machine the first attempt may take too long for the driver."""
    options = Options()
    options.binary_location = "/usr/bin/chromium"
    words = ["--headless=new", "--force-device-scale-factor=1", "--hide-scrollbars", "--disable-gpu", "--lang=en"]
    words.append("--disable-dev-shm-usage")  # a container has little of it, and a page that needs more crashes
    if os.geteuid() == 0:
        words.append("--no-sandbox")
    for word in words:
        options.add_argument(word)
    options.set_capability("goog:loggingPrefs", {"browser": "ALL"})
    RemoteConnection.set_timeout(OF_A_CALL)
    for left in reversed(range(times)):
        try:
            found = webdriver.Chrome(service=Service("/usr/bin/chromedriver"), options=options)
            break
        except exceptions.WebDriverException:
            if not left:
                raise
    found.set_page_load_timeout(OF_A_PAGE)
    found.set_script_timeout(OF_A_PAGE)
    return found


def quit_browser():
    """Ends it."""
    global _browser
    if _browser is not None:
        with contextlib.suppress(Exception):  # what has crashed has ended
            _browser.quit()
        _browser = None


def size(width, height):
    """Has the window show so many points."""
    metrics = {"width": width, "height": height, "deviceScaleFactor": 1, "mobile": False}
    _browser.execute_cdp_cmd("Emulation.setDeviceMetricsOverride", metrics)


class InBrowser(WithPages):
    """A test that looks at a page. It ends with no message of the browser that something is wrong."""

    expected = ()  # parts of messages that may come

    def setUp(self):
        super().setUp()
        self.driver = browser()
        self.driver.get("about:blank")
        self.driver.get_log("browser")

    def tearDown(self):
        wrong = [entry["message"] for entry in self.driver.get_log("browser") if entry["level"] == "SEVERE"]
        wrong = [message for message in wrong if not any(part in message for part in self.expected)]
        self.driver.get("about:blank")
        self.assertEqual(wrong, [])

    # ---- servers and pages

    def book_of(self, example, *, until=None):
        """A journal with the lines of an example, up to one that begins so; questions are left out."""
        lines = (TOP / "examples" / example).read_text(encoding="utf-8").splitlines()
        if until is not None:
            lines = lines[: next(number for number, line in enumerate(lines) if line.startswith(until))]
        return self.journal("".join(f"{line}\n" for line in lines))

    def journal(self, text):
        """A journal of these lines, which is the server's."""
        path = self.path("orders.db")
        subprocess.run([PROGRAM, "--journal", path], input=text.encode(), stdout=subprocess.DEVNULL, check=True)
        return path

    def console(self, *words, **more):
        """A server, its page in the browser, and a caller of the socket."""
        server = self.served(*words, **more)
        self.open_console(server)
        return server

    def open_console(self, server):
        """The page of a server in the browser, and a caller of its socket."""
        self.book = Book.connect(server.address, timeout=PATIENCE)
        self.addCleanup(self.book.close)
        self.driver.get(server.links["console"])
        self.address = self.driver.current_url.split("#")[0]
        self.soon(self.is_ready, "console")

    def open_page(self):
        """The page of the server that was opened before, in the browser anew."""
        self.driver.get(self.address)
        self.soon(self.is_ready, "console")

    def is_ready(self):
        """Whether the console is there, and follows."""
        return self.js("return Boolean(window.rollback?.app?.ready)")

    def file_page(self, journal, *words, program=None):
        """The page of a journal, from a file, as the program writes it that follows."""
        made = self.path("page.html")
        with open(made, "wb") as file:
            subprocess.run([program or follower(), journal, "--html", *words], stdout=file, check=True)
        return pathlib.Path(made)

    def go(self, hash):
        """Goes to an address within the page, and waits until its view is drawn."""
        self.js(GO, hash)
        self.soon(lambda: self.js("return window.arrived"), f"way to {hash}")
        self.drawn()

    def drawn(self):
        """Waits until no view is about to be drawn."""
        self.soon(lambda: self.js(IS_DRAWN), "drawn view")

    # ---- looking, once

    def js(self, script, *given):
        return self.driver.execute_script(script, *given)

    def texts(self, selector):
        """The texts of what is in sight of a selector."""
        return self.js(LOOK + "return seen(arguments[0]).map(textOf)", selector)

    def count(self, selector):
        """How many of a selector are in sight."""
        return self.js(LOOK + "return seen(arguments[0]).length", selector)

    def attributes(self, selector, name):
        """An attribute of each that is in sight."""
        script = LOOK + "return seen(arguments[0]).map((found) => found.getAttribute(arguments[1]))"
        return self.js(script, selector, name)

    def body(self):
        return self.js("return document.body.innerText")

    def hash(self):
        return self.js("return location.hash")

    def has_focus(self, selector):
        return self.js("return document.activeElement?.matches(arguments[0]) === true", selector)

    def focused_text(self):
        return self.js(LOOK + "return textOf(document.activeElement)")

    def is_in_sight(self, step):
        """Whether a step's box is within its picture and within the window."""
        return self.js(
            """const box = document.querySelector('.box[data-id="' + arguments[0] + '"]');
            if (!box) return false;
            const [a, b] = [box.getBoundingClientRect(), box.closest('.picture').getBoundingClientRect()];
            return a.left >= b.left && a.right <= b.right && a.top >= b.top && a.bottom <= b.bottom
                && a.right <= innerWidth && a.bottom <= innerHeight;""",
            step,
        )

    # ---- waiting

    def soon(self, look, what, seconds=SECONDS):
        """What is looked for, once it is there."""
        ends, last = time.monotonic() + seconds, None
        while True:
            try:
                found = look()
                if found:
                    return found
                last = None
            except exceptions.WebDriverException as fault:
                if not has_moved(fault):
                    raise
                last = fault
            if time.monotonic() > ends:
                self.missed(what, last)
            time.sleep(0.03)

    def missed(self, what, fault):
        """Fails, with what the page has instead."""
        with contextlib.suppress(exceptions.WebDriverException):
            what = f"{what}: {self.body()[:3000]}"
        self.fail(f"there is no {what}" + (f"\n{fault}" if fault else ""))

    def taken(self, does, is_so):
        """How many seconds it takes from something that is done until something is so."""
        began = time.monotonic()
        does()
        self.soon(is_so, "end of what is timed")
        return time.monotonic() - began

    def becomes(self, look, wanted):
        """Waits until a look finds what is wanted."""
        last = []

        def is_so():
            last[:] = [look()]
            return last == [wanted]

        try:
            self.soon(is_so, repr(wanted))
        except AssertionError as fault:
            raise AssertionError(f"the last look found {last}: {fault}") from None

    def shows(self, selector):
        """Waits until something of a selector is in sight."""
        self.soon(lambda: self.count(selector), selector)

    def text(self, selector):
        """The text of the first in sight of a selector, once it is there."""
        return self.soon(lambda: self.texts(selector)[:1], selector)[0]

    def has(self, selector, text):
        """Waits until the first in sight of a selector has a text in it."""
        self.soon(lambda: text in "".join(self.texts(selector)[:1]), f"{text!r} in {selector}")

    def sees(self, text):
        """Waits until the page has a text in sight."""
        self.soon(lambda: text in self.body(), f"text {text!r}")

    def box(self, step):
        """The selector of a step's box."""
        return f'.box[data-id="{step}"]'

    # ---- doing

    def click(self, text, selector=CLICKABLE):
        """Clicks on the element that has this text."""
        self.press(selector, text)

    def press(self, selector, text=None, begins=False):
        """Clicks on the first in sight of a selector, or on the first that has this text, or begins with it."""
        what = selector if text is None else f"{selector} {text!r}"
        self.soon(lambda: self.pressed(selector, text, begins), f"{what} to click on")
        self.drawn()

    def pressed(self, selector, text, begins):
        """Whether a click has reached its element. What the page did at it is another question."""
        found = self.driver.execute_async_script(AIMED, selector, text, begins)
        if found is None:
            return False
        found.click()
        # a page that was left meanwhile has no such mark, and was left by the click
        return self.js("return window.reached !== false")

    def choose(self, option):
        """Chooses an option of a list."""

        def chosen():
            found = self.js(LOOK + "return document.querySelector(arguments[0])", option)
            if found is not None:
                found.click()
            return found is not None

        self.soon(chosen, option)

    def point(self, selector, text=None):
        """Moves the pointer to an element."""

        def pointed():
            found = self.js(LOOK + "return first(arguments[0], arguments[1], false)", selector, text)
            if found is not None:
                ActionChains(self.driver).move_to_element(found).perform()
            return found is not None and self.js("return arguments[0].matches(':hover')", found)

        self.soon(pointed, f"{selector} {text or ''} to point at")

    def focus(self, selector):
        """Gives the focus to the first of a selector, once it is there."""
        script = "document.querySelector(arguments[0]).focus(); return document.activeElement.matches(arguments[0])"
        self.soon(lambda: self.js(script, selector), f"{selector} with the focus")

    def type(self, *keys):
        """Types where the focus is, once the page has it."""
        self.soon(lambda: self.js("return document.hasFocus()"), "focus of the browser")
        ActionChains(self.driver).send_keys(*keys).perform()

    def fill(self, selector, text, *keys):
        """Writes into a field in the place of what it has, and then types keys there. Whatever else is in it then is a fault."""

        def filled():
            field = self.js(LOOK + "return first(arguments[0], null, false)", selector)
            if field is None:
                return False
            field.clear()
            field.send_keys(text)
            self.assertEqual(self.js("return arguments[0].value", field), text)
            if keys:
                field.send_keys(*keys)
            return True

        self.soon(filled, f"{selector} to write into")

    def write(self, name, text):
        """Writes into a field of a form."""
        self.fill(f'[name="{name}"]', text)

    def value(self, selector):
        """What a field has."""
        return self.js("return document.querySelector(arguments[0]).value", selector)

    def search(self, text, *keys):
        self.fill("input[type=search]", text, *keys)


class OfOneBook(InBrowser):
    """Tests that only look, at one book of one server: what begins it takes longer than a look."""

    example, until_line = "wrong-bill.txt", "plan"

    @classmethod
    def setUpClass(cls):
        super().setUpClass()
        keeper = InBrowser()
        cls.addClassCleanup(keeper.doCleanups)
        WithPages.setUp(keeper)
        keeper.book_of(cls.example, until=cls.until_line)
        cls.server = keeper.served()

    def setUp(self):
        super().setUp()
        self.open_console(self.server)


__all__ = ["HEIGHT", "InBrowser", "Keys", "OfOneBook", "WIDTH", "browser", "quit_browser", "size"]
