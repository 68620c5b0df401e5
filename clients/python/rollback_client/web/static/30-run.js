// What goes on: steps of one execution, the runner, what is paused and what waits.
(function () {
"use strict";
const { addView, app, busyButton, counted, el, executionLink, executionOf, fill, link, notice, shown, slots, stepLink } = rollback;
const { canGive, give, giveLine, read, sayRefusal } = rollback.console;
const MOST_DRIVEN = 2000;
const LOOKS_AGAIN = 2000; // milliseconds

const about = () => app.source.about;

// ---- one execution

async function threadsThatMove(execution) {
    const { threads } = await app.source.ask("show " + execution);
    return threads.filter((thread) => thread.move && !thread.closed).map((thread) => thread.thread);
}

async function stepOnce(execution) {
    const [thread] = await threadsThatMove(execution);
    if (!thread) {
        notice(execution + " has no step now.");
        return;
    }
    const reply = await giveLine("step " + thread);
    if (reply !== null) notice(reply.trim().split(" ")[1] + " is taken.", "good");
}

// Steps each thread of an execution that can move, until none can, or one is refused.
async function driveOne(execution, made) {
    let count = 0;
    const before = made.textContent;
    try {
        for (let threads = await threadsThatMove(execution); threads.length && count < MOST_DRIVEN; threads = await threadsThatMove(execution)) {
            let moved = 0;
            for (const thread of threads) {
                const told = await give("/line", { line: "step " + thread });
                if (told === null) return;
                if (told.status === 200) {
                    moved += 1;
                } else if (!/^no (5|6) /.test(told.value.reply || "") && !/^no 5$/.test((told.value.reply || "").trim())) {
                    sayRefusal(told.value);
                    return;
                }
            }
            count += moved;
            made.textContent = "Driving: " + counted(count, "step");
            if (!moved) break;
        }
        notice(counted(count, "step") + " of " + execution + (count === 1 ? " is" : " are") + " taken.", "good");
    } finally {
        made.textContent = before;
        await app.source.catchUp();
    }
}

// The buttons of an execution that can go on.
function moves(execution, status) {
    if (!canGive() || status !== "open") return null;
    return el("span", { class: "moves" },
        busyButton("Step", () => stepOnce(execution), { class: "small", "data-does": "step" }), " ",
        busyButton("Drive this execution", (made) => driveOne(execution, made), { class: "small", "data-does": "drive" }));
}

slots.execution = (row) => {
    const made = [moves(row.execution, row.status)];
    if (canGive() && row.status === "open" && about().runs) made.push(pauseButton("execution", row.execution));
    return made;
};

function isPausedNow(kind, name) {
    return about().paused.some(([other, of]) => other === kind && of === name);
}

function pauseButton(kind, name) {
    const is = isPausedNow(kind, name);
    const of = kind === "all" ? "" : " " + kind + " " + name;
    const text = (is ? "Resume" : "Pause") + (kind === "all" ? " all" : "");
    return busyButton(text, async (made) => {
        if ((await giveLine((is ? "!resume" : "!pause") + of)) === null) return;
        notice((kind === "all" ? "All is " : name + " is ") + (is ? "resumed." : "paused."), "good");
        made.replaceWith(pauseButton(kind, name));
    }, { class: "small", "data-does": is ? "resume" : "pause" });
}

// ---- why it failed

const FAULTS = { absent: "is absent", "another type": "is of another type", empty: "is empty", "no attribute value": "is no attribute value" };

function malformedText(why) {
    const field = shown(why.field || "");
    return {
        "no object": "what is to be a call is no object",
        "unknown field": "the call has a field " + field + ", which isn't known",
        "missing field": "the call lacks " + field,
        "table name": "the call's TableName is no text",
        "no attributes": "the call's item or key is no object of attributes",
        "attribute value": "the attribute " + field + " " + (FAULTS[why.fault] || "has a bad value"),
        condition: "the call's condition is none that is taken",
        "return values": "the call's ReturnValues are none that are taken",
    }[why.flaw] || "the call is malformed";
}

// What the follower found out about a failure, as a sentence without its end.
function whyText(why) {
    const path = why.path === null || why.path === undefined ? "a path" : shown(why.path);
    switch (why.case) {
        case "picks_nothing": return path + " picks nothing";
        case "cannot_place": return "the result can't be placed at " + path;
        case "too_deep": return "a value has more than 127 levels";
        case "no_list": return "what ItemsPath picks is no list";
        case "too_many": return "the Map has " + counted(why.elements, "element") + ", and at most 4,096 are taken";
        case "no_rule_holds": return "no rule of the Choice holds, and it has no Default";
        case "malformed": return malformedText(why);
        case "other_table": return "the call names the table " + shown(why.named) + ", and this book's is " + shown(why.table);
        case "no_key": return "the key's attribute " + shown(why.attribute) + " " + (FAULTS[why.fault] || "is none");
        case "other_attribute": return shown(why.attribute) + " is no attribute of the key";
        case "condition": return why.condition + "(" + shown(why.attribute) + ") doesn't hold of the item that it met";
        case "fail": // as the plain book says it
        case "declared": return "this Fail state says so";
        case "branch": return (why.branch === undefined ? "a branch" : "branch " + why.branch) + " failed";
        default: return "";
    }
}

// The place within the state's definition, as people write it.
function placeText(place) {
    return place.map((part, number) => (typeof part === "number" ? "[" + part + "]" : (number ? "." : "") + shown(part))).join("");
}

async function drawWhy(execution, made) {
    const { why } = await app.source.ask("explain " + execution).catch(() => ({ why: null }));
    const text = why ? whyText(why) : "";
    if (!text) return;
    const value = why.of === null || why.of === undefined ? why.item : why.of;
    fill(made, el("b", null, "Why: "), "in ", shown(why.state), why.place.length ? ", " + placeText(why.place) : "", ": ", text,
        value === undefined || value === null ? null : [", of ", el("bdi", { class: "line-of-value" }, rollback.short(rollback.jsonText(value), 120))],
        why.step ? [" (", stepLink(why.step), ")"] : null, ".");
    made.hidden = false;
}

slots.why = (row) => {
    if (row.status !== "failed") return null;
    const made = el("p", { class: "why", hidden: true });
    drawWhy(row.execution, made);
    return made;
};

// ---- the runner

addView("runner", {
    nav: "Runner",
    title: () => "Runner",
    key: () => "",
    open: async () => new RunnerView(),
});

class RunnerView {
    constructor() {
        this.state = el("p", { class: "lead" });
        this.acts = el("div", { class: "acts" });
        this.paused = el("div");
        this.waits = el("div");
        this.element = el("section", { class: "view runner" }, el("h1", null, "Runner"),
            el("div", { class: "flow" }, this.state, this.acts, el("h2", null, "Paused"), this.paused, el("h2", null, "What waits"), this.waits));
        this.drawn = "";
        this.look();
        this.timer = setInterval(() => this.look(), LOOKS_AGAIN);
    }

    close() {
        clearInterval(this.timer);
    }

    news() {
        this.draw();
    }

    async look() {
        if (document.hidden) return;
        const { waits } = await read("/waits").catch(() => ({ waits: this.last }));
        this.last = waits;
        this.draw();
    }

    draw() {
        const { runs, paused } = about();
        const text = JSON.stringify([runs, paused, this.last]);
        if (text === this.drawn) return;
        this.drawn = text;
        this.state.textContent = runs ? "A runner takes steps of this book, each at its moment."
            : "No runner takes steps of this book: serve it with --run, or start rollback-run.";
        fill(this.acts, canGive() ? [pauseButton("all", ""), " "] : null);
        fill(this.paused, paused.length ? el("ul", { class: "related" }, paused.map((one) => this.drawPaused(one))) : el("p", { class: "empty" }, "Nothing is paused."));
        fill(this.waits, this.drawWaits(this.last));
    }

    drawPaused([kind, name]) {
        const what = kind === "all" ? "all executions" : kind === "machine" ? ["machine ", shown(name)] : ["execution ", executionLink(name)];
        return el("li", null, what, " ", canGive() && kind !== "all" ? pauseButton(kind, name) : null);
    }

    drawWaits(waits) {
        if (!waits || !waits.length) return el("p", { class: "empty" }, waits ? "Nothing waits." : "Without a runner nothing waits.");
        const rows = waits.slice(0, 500).map((row) => el("tr", null,
            el("th", { scope: "row" }, link(rollback.addressOf({ execution: executionOf(row.thread) }), shown(row.thread))),
            el("td", null, row.moment === null ? "" : "until " + untilText(row.moment)), el("td", null, shown(row.why))));
        return [el("table", { class: "changes" }, el("tbody", null, rows)), waits.length > 500 ? el("p", null, "and " + counted(waits.length - 500, "other")) : null];
    }
}

function untilText(moment) {
    const milliseconds = Date.parse(moment);
    return Number.isNaN(milliseconds) ? moment : rollback.timeText(milliseconds);
}

Object.assign(rollback.console, { moves, pauseButton, whyText });
})();
