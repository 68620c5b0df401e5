// What happened: the lines of the journal, the latest first, with who gave them and when.
(function () {
"use strict";
const { RowTable, addView, app, busyButton, counted, el, link, addressOf, shown, stepLink, timeText } = rollback;
const { read } = rollback.console;
const PAGE = 500;

addView("log", {
    nav: "What happened",
    title: () => "What happened",
    key: () => "",
    open: async () => {
        const view = new LogView();
        await view.load();
        return view;
    },
});

class LogView {
    constructor() {
        this.rows = [];
        this.first = null;
        this.again = rollback.steadily(() => this.look());
        this.field = el("input", {
            type: "text", placeholder: "Line or caller has", "aria-label": "Line or caller has", spellcheck: "false", autocomplete: "off",
            input: rollback.later(120, () => this.draw()),
        });
        this.note = el("span", { class: "note" });
        this.earlier = busyButton("Earlier lines", () => this.loadEarlier(), { class: "small" });
        this.table = new RowTable([
            { title: "Entry", class: "number", cell: (row) => String(row.entry) },
            { title: "When", class: "time", cell: (row) => timeText(row.when) },
            { title: "Who", class: "who", cell: (row) => (row.who === null ? "" : shown(row.who)) },
            { title: "Line", class: "wide", cell: (row) => lineOf(row), hint: (row) => row.text },
            { title: "Steps", class: "number", cell: (row) => (row.undone ? "\u2212" + row.undone.length : row.command === "step" || row.command === "start" ? "+1" : "") },
        ], (row) => String(row.entry), "What happened", "No line was accepted yet.");
        this.element = el("section", { class: "view log" },
            el("div", { class: "bar" }, el("h1", null, "What happened"), this.field, this.earlier, this.note), this.table.element);
    }

    async load() {
        const answer = await read("/entries?count=" + PAGE);
        if (!answer.log) throw new rollback.NoAnswer(answer.error);
        this.take(answer, false);
    }

    take(answer, isEarlier) {
        const rows = answer.log.map((row) => ({ ...row, text: textOf(row) })).reverse();
        if (isEarlier) {
            this.rows.push(...rows);
        } else {
            const known = this.rows.length ? this.rows[0].entry : -1;
            this.rows.unshift(...rows.filter((row) => row.entry > known));
        }
        if (this.first === null || isEarlier) this.first = answer.from;
        this.note.textContent = answer.has_log ? "" : "No audit log (--log): who and when are known only since this server began.";
        this.earlier.hidden = this.first === 0;
        this.draw();
    }

    async loadEarlier() {
        this.take(await read("/entries?count=" + PAGE + "&before=" + this.first), true);
    }

    draw() {
        const text = this.field.value.trim().toLowerCase();
        this.table.set(this.rows.filter((row) => !text || (row.text + " " + (row.who || "")).toLowerCase().includes(text)));
    }

    opened() {
        this.table.draw();
    }

    news(news) {
        this.isAnew = this.isAnew || news.all;
        if (news.entries || news.all) this.again();
    }

    async look() {
        const isAnew = this.isAnew;
        this.isAnew = false;
        const known = this.rows.length ? this.rows[0].entry + 1 : 0;
        if (isAnew || app.source.entries - known > 1000) {
            this.rows = [];
            this.first = null;
            await this.load().catch(() => {});
        } else if (app.source.entries > known) {
            const answer = await read("/entries?count=" + (app.source.entries - known) + "&before=" + app.source.entries).catch(() => null);
            if (answer && answer.log) this.take(answer, false);
        }
    }
}

function textOf(row) {
    const words = [row.command, row.table, row.of || row.step, row.machine];
    return words.filter(Boolean).map(shown).join(" ");
}

function lineOf(row) {
    const step = row.of || row.step;
    const more = [];
    if (step) more.push(" ", stepLink(step));
    if (row.machine) more.push(" ", link(addressOf({ machine: row.machine }), shown(row.machine)));
    if (row.table) more.push(" " + shown(row.table));
    if (row.kind) more.push(el("span", { class: "note" }, " " + row.kind));
    if (row.undone) more.push(el("span", { class: "note" }, " took back " + counted(row.undone.length, "step") + " "), link(addressOf({ taken: row.of }), "what is ready"));
    if (row.held) more.push(el("span", { class: "note" }, " held " + counted(row.held, "step")));
    return [el("b", null, row.command), more];
}
})();
