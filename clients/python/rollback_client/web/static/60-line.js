// A line for who would rather type: completion, history, replies with their meaning.
(function () {
"use strict";
const { addView, app, el, fill, later, shown, showDialog, counted } = rollback;
const { canGive, give } = rollback.console;
const MOST_REPLY = 400; // lines of a reply that are shown
const MOST_KEPT = 100;
const COMMANDS = {
    define: "define MACHINE DEFINITION", drive: "drive STEPS", held: "held", history: "history", hold: "hold STEP", items: "items",
    plan: "plan STEP", rollback: "rollback STEP", settle: "settle", show: "show THREAD", start: "start NAME MACHINE INPUT",
    step: "step THREAD", table: "table NAME KEY:TYPE [ITEMS]", undo: "undo STEP", work: "work WORKERS STEPS",
    "!pause": "!pause [execution NAME | machine NAME]", "!resume": "!resume [execution NAME | machine NAME]", "!waits": "!waits",
    "?": "? QUESTION",
};
const typed = [];
const told = [];

addView("line", {
    nav: "Line",
    title: () => "Line",
    key: () => "",
    open: async () => new LineView(),
});

class LineView {
    constructor() {
        this.at = typed.length;
        this.turn = Promise.resolve();
        this.field = el("input", {
            type: "text", class: "code", "aria-label": "Line", placeholder: "show order-2", spellcheck: "false", autocomplete: "off",
            input: later(120, () => this.suggest()), keydown: (event) => this.pressed(event), disabled: !canGive(),
        });
        this.form = el("ul", { class: "suggestions", "aria-label": "Completions" });
        this.said = el("div", { class: "flow replies", role: "log", tabindex: "0" });
        this.element = el("section", { class: "view line-view" }, el("div", { class: "bar" }, el("h1", null, "Line")),
            canGive() ? null : el("p", { class: "note" }, "This console is read-only: it gives no line."),
            this.field, this.form, this.said);
        for (const [line, value, status] of told) this.show(line, value, status);
        this.suggest();
    }

    opened() {
        this.field.focus();
    }

    news() {}

    // ---- completion

    async suggest() {
        const text = this.field.value;
        const found = await completions(text);
        if (text !== this.field.value) return;
        this.found = found;
        fill(this.form, found.slice(0, 10).map((one) => el("li", null,
            rollback.button(one.text, () => this.take(one), { class: "small", tabindex: "-1" }))));
    }

    take(one) {
        this.field.value = one.line;
        this.field.focus();
        this.suggest();
    }

    pressed(event) {
        if (event.key === "Enter") {
            event.preventDefault();
            this.give();
        } else if (event.key === "Tab" && !event.shiftKey && this.found && this.found.length && this.field.value) {
            const [one] = this.found;
            if (one.line !== this.field.value) {
                event.preventDefault();
                this.take(one);
            }
        } else if (event.key === "ArrowUp" || event.key === "ArrowDown") {
            event.preventDefault();
            this.at = Math.max(0, Math.min(typed.length, this.at + (event.key === "ArrowUp" ? -1 : 1)));
            this.field.value = typed[this.at] || "";
        }
    }

    // ---- what is given

    // Lines are given one after the other: what is typed meanwhile waits for its turn.
    give() {
        const line = this.field.value.trim();
        if (!line) return;
        this.field.value = "";
        this.turn = this.turn.then(() => this.giveNow(line)).catch((fault) => rollback.notice(fault.message, "fault"));
    }

    async giveNow(line) {
        if (!(await isSure(line))) {
            if (!this.field.value) this.field.value = line;
            this.field.focus();
            return;
        }
        typed.push(line);
        if (typed.length > MOST_KEPT) typed.shift();
        this.at = typed.length;
        const given = await give("/line", { line });
        if (given === null) return;
        told.push([line, given.value, given.status]);
        if (told.length > MOST_KEPT) told.shift();
        this.show(line, given.value, given.status);
        await app.source.catchUp().catch(() => {});
    }

    show(line, value, status) {
        const lines = (value.reply || "").replace(/\n$/, "").split("\n");
        const rest = lines.length - MOST_REPLY;
        const text = shownLines(lines.slice(0, MOST_REPLY)) + (rest > 0 ? "\nand " + counted(rest, "other line") : "");
        this.said.prepend(el("div", { class: "reply" + (status === 200 ? "" : " refused") },
            el("code", { class: "given" }, el("bdi", null, "> " + shown(line))),
            el("pre", { class: "value" }, el("bdi", null, text)),
            value.sentence || value.error ? el("p", null, shown(value.sentence || value.error)) : null));
    }
}

function shownLines(lines) {
    return lines.map(shown).join("\n");
}

// Before something is taken back by a line, it is asked about, as a button asks.
async function isSure(line) {
    const [word, step] = line.split(" ");
    if (!["rollback", "hold", "settle"].includes(word)) return true;
    let says = "All steps that remain are settled: they can't be taken back any more.";
    if (word !== "settle") {
        const plan = await app.source.ask("plan " + step).catch(() => null);
        if (plan === null) return true; // the program says what is wrong
        says = counted(plan.count, "step") + " of " + counted(plan.executions.length, "execution") + (word === "hold" ? " are held." : " are taken back.");
    }
    return new Promise((done) => {
        const dialog = showDialog(line, el("p", null, says), [["Cancel", null], ["Give the line", () => done(true), "danger"]]);
        dialog.addEventListener("close", () => setTimeout(() => done(false)));
    });
}

async function completions(text) {
    const [word, ...rest] = text.split(" ");
    if (!rest.length) {
        return Object.keys(COMMANDS).filter((one) => one.startsWith(word)).map((one) => ({ text: COMMANDS[one], line: one + (COMMANDS[one] === one ? "" : " ") }));
    }
    const last = rest[rest.length - 1];
    const before = text.slice(0, text.length - last.length);
    const names = await namesFor(word, rest.length, last);
    return names.map((name) => ({ text: name, line: before + name }));
}

async function namesFor(word, place, begun) {
    const { source } = app;
    if (place === 1 && ["plan", "rollback", "undo", "hold"].includes(word) && begun) {
        const answer = await source.ask("find " + begun + " most 10").catch(() => ({ steps: [] }));
        return answer.steps.map((row) => row.step);
    }
    const isExecution = place === 1 && ["step", "show"].includes(word) || place === 2 && /^!(pause|resume)$/.test(word);
    if (isExecution) return [...source.rowOf.keys()].filter((name) => name.startsWith(begun)).slice(0, 10);
    if (place === 2 && word === "start") return Object.keys(source.machineCounts).filter((name) => name.startsWith(begun));
    return [];
}
})();
