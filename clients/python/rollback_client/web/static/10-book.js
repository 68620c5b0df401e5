// A running book: what it answers, what moved, and what is given to it.
(function () {
"use strict";
const { NoAnswer, app, counted, notice, readJson, tellNews } = rollback;
const PAGE = 5000;
const AGAIN = 1000; // milliseconds before a lost connection is tried again
const PRESS = 1000; // milliseconds for which news waits for the release of a button

// A page that is drawn anew between a button's press and its release loses the click, so news waits for that.
let pressed = 0;
document.addEventListener("pointerdown", () => { pressed = Date.now(); }, true);
for (const name of ["pointerup", "pointercancel"]) document.addEventListener(name, () => setTimeout(() => { pressed = 0; }), true);

async function untilReleased() {
    while (pressed && Date.now() - pressed < PRESS) await new Promise((done) => { setTimeout(done, 20); });
}

class Lost extends Error {}

// ---- requests

async function answered(path, more) {
    let response;
    try {
        response = await fetch(path, { credentials: "same-origin", cache: "no-store", ...more });
    } catch (fault) {
        throw new Lost("the server isn't reached");
    }
    const text = await response.text().catch(() => { throw new Lost("the answer broke off"); });
    let value;
    try {
        value = readJson(text);
    } catch (fault) {
        throw new Lost("the answer isn't whole");
    }
    return { status: response.status, value };
}

async function read(path) {
    const { status, value } = await answered(path);
    if (status !== 200) throw new NoAnswer(value.error || "the server refuses with " + status);
    return value;
}

// Gives something. The answer's `status` is 200, or what it is refused with; nothing comes if the connection was lost.
async function give(path, body) {
    try {
        return await answered(path, {
            method: "POST", headers: { "Content-Type": "application/json" }, body: JSON.stringify(body),
        });
    } catch (fault) {
        app.source.isInDoubt = true;
        notice("The connection was lost. It may or may not be done: the page looks as soon as the server is there.", "fault", true);
        return null;
    }
}

// Gives a line. Its reply comes, or nothing if it is refused, which is said.
async function giveLine(line) {
    const given = await give("/line", { line });
    if (given === null) return null;
    if (given.status === 200) {
        await app.source.catchUp();
        return given.value.reply;
    }
    sayRefusal(given.value);
    return null;
}

function sayRefusal(value) {
    const said = value.sentence || value.error || "it is refused";
    notice(said.charAt(0).toUpperCase() + said.slice(1) + ".", "fault");
}

// ---- the book

class ConsoleBook {
    constructor(about) {
        this.about = about;
        this.name = about.file || "a book in memory";
        this.first = null;
        this.canAsk = true;
        this.rowOf = new Map();
        this.counts = {};
        this.machineCounts = {};
        this.held = null;
        this.entries = 0;
        this.times = [];
        this.isLoaded = false;
        this.isInDoubt = false;
        this.looking = null;
        this.isFollowing = false;
        this.heard = [];
    }

    async ask(question) {
        const value = await read("/ask?q=" + encodeURIComponent(question));
        if (value.entries === undefined) throw new NoAnswer(value.error || "no answer"); // an execution's answer has an error of its own
        return value;
    }

    async load() {
        if (this.isLoaded) return;
        await this.loadAll();
    }

    async loadAll() {
        const rows = new Map();
        let after = "";
        for (;;) {
            const answer = await this.ask("list" + after + " most " + PAGE);
            for (const row of answer.executions) rows.set(row.execution, row);
            if (!after) this.take(answer);
            if (!answer.more) break;
            after = " after " + answer.executions[answer.executions.length - 1].execution;
        }
        this.rowOf = rows;
        this.isLoaded = true;
        this.times = (await read("/times")).times;
    }

    take(answer) {
        this.counts = answer.counts;
        this.machineCounts = answer.machines;
        this.held = answer.held;
        this.entries = answer.entries;
    }

    // Takes what moved since it looked, and says it to the view.
    async catchUp() {
        while (this.looking) await this.looking.catch(() => {});
        const looking = this.look();
        this.looking = looking;
        try {
            await looking;
        } finally {
            this.looking = null;
        }
    }

    async look() {
        if (!this.isLoaded || this.entries === 0) {
            await this.loadAll();
            tellNews({ all: true, entries: true, executions: new Set() });
            return;
        }
        const since = this.entries - 1;
        const before = this.entries;
        const changed = new Set();
        let after = "";
        for (;;) {
            const answer = await this.ask("list since " + since + after + " most " + PAGE);
            if (answer.entries < before) {
                this.isLoaded = false;
                await this.look();
                return;
            }
            for (const row of answer.executions) {
                this.rowOf.set(row.execution, row);
                changed.add(row.execution);
            }
            for (const name of answer.gone) {
                this.rowOf.delete(name);
                changed.add(name);
            }
            if (!after) this.take(answer);
            if (!answer.more) break;
            after = " after " + answer.executions[answer.executions.length - 1].execution;
        }
        if (this.entries > before) this.times.push([before, this.entries, Date.now()]);
        await untilReleased();
        tellNews({ all: false, entries: this.entries > before, executions: changed });
        this.tell();
    }

    when(entry) {
        let [low, high] = [0, this.times.length - 1];
        while (low <= high) {
            const middle = (low + high) >> 1;
            const [first, end, moment] = this.times[middle];
            if (entry < first) high = middle - 1;
            else if (entry >= end) low = middle + 1;
            else return moment;
        }
        return null;
    }

    // ---- events

    tell() {
        for (const hear of this.heard) hear();
    }

    // Of all pages of a browser one has the stream, and tells the others: a browser has six connections to a host, and they are for answers.
    follow() {
        if (this.isFollowing || document.hidden) return;
        this.isFollowing = true;
        this.leaves = new AbortController();
        this.channel = new BroadcastChannel("rollback");
        this.channel.onmessage = (event) => this.hear(event.data);
        if (!navigator.locks) {
            this.stream();
            return;
        }
        navigator.locks.request("rollback-events", { signal: this.leaves.signal }, () => this.stream()).catch(() => {});
    }

    // Streams until this page is hidden.
    stream() {
        return new Promise((done) => {
            this.leaves.signal.addEventListener("abort", () => {
                this.events.close();
                done();
            });
            this.open(this.leaves.signal);
        });
    }

    open(signal) {
        if (signal.aborted) return;
        this.events = new EventSource("/events");
        this.events.onmessage = (event) => this.tellAll(JSON.parse(event.data));
        this.events.onerror = () => {
            this.events.close();
            this.tellAll({ isLost: true });
            setTimeout(() => this.open(signal), AGAIN);
        };
    }

    tellAll(state) {
        this.channel.postMessage(state);
        this.hear(state);
    }

    stop() {
        if (!this.isFollowing) return;
        this.isFollowing = false;
        this.leaves.abort();
        this.channel.close();
    }

    async hear(state) {
        const { about } = this;
        if (state.isLost) {
            await this.sayLost();
            return;
        }
        const isOther = about.begun !== state.begun;
        const before = JSON.stringify([about.paused, about.runs]);
        Object.assign(about, state);
        if (before !== JSON.stringify([about.paused, about.runs])) tellNews({ all: false, entries: false, executions: new Set(), isPausing: true });
        const wasLost = app.status.classList.contains("lost");
        this.say(state.follows ? "" : "The book's answers are begun again", !state.follows);
        if (!state.follows) return;
        try {
            if (isOther) this.isLoaded = false;
            if (isOther || wasLost || this.isInDoubt || state.entries !== this.entries) await this.catchUp();
            else this.tell();
            this.isInDoubt = false;
        } catch (fault) {
            this.tell();
        }
    }

    say(text, isLost) {
        app.status.classList.toggle("lost", Boolean(isLost));
        const said = text || "Live";
        if (app.status.textContent !== said) app.status.textContent = said;
    }

    async sayLost() {
        this.say("Connection lost: trying again", true);
        try {
            await read("/book");
        } catch (fault) {
            if (fault instanceof NoAnswer) this.say(fault.message, true);
        }
    }
}

document.addEventListener("visibilitychange", () => {
    const book = app.source;
    if (!(book instanceof ConsoleBook)) return;
    if (document.hidden) {
        book.stop();
    } else {
        book.follow();
        book.catchUp().catch(() => {});
    }
});

rollback.console = { ConsoleBook, Lost, counted, give, giveLine, read, sayRefusal };
})();
