// Machines: their definitions as text and as a picture, a new one with the linter's findings, and the start of an execution.
(function () {
"use strict";
const {
    Picture, addView, addressOf, app, busyButton, button, copyButton, counted, el, fill, go, jsonText, later, link, notice, readJson, short,
    shown, slots,
} = rollback;
const { canGive, give, giveLine, sayRefusal } = rollback.console;
const NAME = "[A-Za-z0-9_\\-]{1,64}";

slots.machineLink = (name) => link(addressOf({ machine: name }), shown(name), { class: "name" });
slots.overview = () => (canGive() ? link("#start", "Start an execution", { class: "pill" }) : null);

// ---- JSON that is typed

// What is wrong with a text as a value of a book, or nothing.
function jsonFault(text) {
    let value;
    try {
        value = readJson(text);
    } catch (fault) {
        return String(fault.message);
    }
    const number = fraction(value);
    return number === null ? "" : "the number " + number + " isn't whole, or doesn't fit 64 bits: write it as a text";
}

function fraction(value) {
    if (typeof value === "number") return Number.isSafeInteger(value) ? null : String(value);
    if (typeof value === "bigint") return value >= -(2n ** 63n) && value < 2n ** 63n ? null : String(value);
    if (value === null || typeof value !== "object") return null;
    for (const part of Object.values(value)) {
        const found = fraction(part);
        if (found !== null) return found;
    }
    return null;
}

// ---- the start of an execution

addView("start", {
    under: "overview",
    title: () => "Start an execution",
    key: () => "",
    open: async (params) => {
        const { machines } = await app.source.ask("machines");
        return new StartView(machines, params.get("start"));
    },
});

class StartView {
    constructor(machines, machine) {
        this.name = el("input", { name: "Name", required: true, pattern: NAME, spellcheck: "false", autocomplete: "off", maxlength: "64" });
        this.machine = el("select", { name: "Machine" }, machines.map((name) => el("option", { value: name, selected: name === machine }, shown(name))));
        this.input = el("textarea", { name: "Input", rows: "10", spellcheck: "false", input: () => this.check() });
        this.input.value = "{}";
        this.fault = el("p", { class: "fault-text", role: "status" });
        this.go = busyButton("Start", () => this.start(), { class: "main" });
        const field = (text, made) => el("label", { class: "field" }, el("span", null, text), made);
        this.element = el("section", { class: "view form" }, el("h1", null, "Start an execution"),
            machines.length ? null : el("p", null, "There is no machine yet: ", link("#define", "define one"), "."),
            field("Name", this.name), field("Machine", this.machine), field("Input", this.input), this.fault, el("div", { class: "acts" }, this.go));
    }

    opened() {
        this.name.focus();
    }

    news() {}

    check() {
        const fault = jsonFault(this.input.value);
        this.fault.textContent = fault ? "Input: " + fault + "." : "";
        this.input.setAttribute("aria-invalid", String(Boolean(fault)));
        return !fault;
    }

    async start() {
        if (!this.name.reportValidity() || !this.check() || !this.machine.value) return;
        const name = this.name.value;
        const reply = await giveLine("start " + name + " " + this.machine.value + " " + jsonText(readJson(this.input.value)));
        if (reply === null) return;
        notice(name + " is started.", "good");
        go({ step: name + "#0" });
    }
}

// ---- definitions

addView("machines", {
    nav: "Machines",
    title: () => "Machines",
    key: () => "",
    open: async () => {
        const view = new MachinesView();
        await view.load();
        return view;
    },
});

class MachinesView {
    constructor() {
        this.list = el("div", { class: "flow" });
        this.again = rollback.steadily(() => this.load().catch(() => {}));
        this.element = el("section", { class: "view machines" },
            el("div", { class: "bar" }, el("h1", null, "Machines"), canGive() ? link("#define", "Define a machine", { class: "pill" }) : null), this.list);
    }

    async load() {
        const { machines } = await app.source.ask("machines");
        const counts = app.source.machineCounts;
        const drawn = JSON.stringify([machines, counts]);
        if (drawn === this.drawn) return;
        this.drawn = drawn;
        const rows = machines.map((name) => {
            const of = counts[name] || {};
            return el("tr", null, el("th", { scope: "row" }, slots.machineLink(name)),
                rollback.STATUSES.map((status) => el("td", null, (of[status] || 0).toLocaleString("en"))),
                el("td", null, canGive() ? link(addressOf({ start: name }), "Start an execution") : null));
        });
        const head = ["Machine", ...rollback.STATUSES, ""].map((text) => el("th", { scope: "col" }, text));
        fill(this.list, rows.length ? el("table", { class: "changes" }, el("thead", null, el("tr", null, head)), el("tbody", null, rows))
            : el("p", { class: "empty" }, "No machine is defined yet."));
    }

    news(news) {
        if (news.entries || news.all) this.again();
    }
}

addView("machine", {
    under: "machines",
    title: (params) => params.get("machine"),
    key: (params) => params.get("machine"),
    open: async (params) => {
        const name = params.get("machine");
        const { definition } = await app.source.ask("machine " + name + " definition");
        return new MachineView(name, definition);
    },
});

class MachineView {
    constructor(name, definition) {
        const value = readJson(definition);
        this.text = jsonText(value, 2);
        this.detail = el("pre", { class: "value definition", tabindex: "0" }, el("bdi", null, shown(this.text)));
        this.states = new Map();
        this.picture = new Picture("States of " + name, (id) => this.chosen(id));
        this.scene = stateScene(value, this.states);
        this.element = el("section", { class: "view machine" },
            el("div", { class: "bar" }, el("h1", null, el("bdi", null, name)), copyButton(() => definition, "the definition"),
                link(addressOf({ start: name }), "Start an execution", { class: "pill" }),
                button("Whole text", () => fill(this.detail, el("bdi", null, shown(this.text))), { class: "small" })),
            el("div", { class: "beside" }, this.picture.element, this.detail));
    }

    opened() {
        this.picture.show(this.scene);
        this.picture.fitIfReadable();
    }

    news() {}

    chosen(id) {
        this.picture.select(id, false);
        fill(this.detail, el("bdi", null, shown(jsonText(this.states.get(id), 2))));
    }
}

// The states of a machine, level by level: a band for each States object.
function stateScene(definition, states) {
    const scene = { boxes: [], lines: [], heads: [], bands: [], width: 16, height: 0 };
    addLevel(scene, definition, "", "", states);
    scene.height += 16;
    for (const band of scene.bands) band.h = scene.height - 8;
    return scene;
}

function addLevel(scene, level, before, title, states) {
    const far = farOf(level);
    const left = scene.width;
    const columns = new Map();
    let width = 1;
    for (const [name, row] of far) {
        const column = columns.get(row) || 0;
        columns.set(row, column + 1);
        width = Math.max(width, column + 1);
        scene.boxes.push({ ...stateBox(before + name, name, level.States[name]), x: left + 10 + column * 200, y: 16 + row * 84 });
        states.set(before + name, level.States[name]);
        scene.height = Math.max(scene.height, 16 + row * 84 + 52);
    }
    scene.heads.push({ x: left, w: width * 200, text: title || "The machine" });
    scene.bands.push({ x: left, y: 4, w: width * 200, h: 0 });
    scene.width = left + width * 200 + 28;
    for (const name of far.keys()) {
        for (const [next, why] of nextOf(level.States[name])) {
            scene.lines.push({ from: before + name, to: before + next, reason: why === "Catch" ? "bound" : "thread", title: () => name + " to " + next + ": " + why });
        }
        innerOf(level.States[name]).forEach((inner, number, all) => {
            const own = before + name + "/" + number + "/";
            addLevel(scene, inner, own, name + (all.length > 1 ? ", branch " + number : ""), states);
            scene.lines.push({ from: before + name, to: own + inner.StartAt, reason: "fork", title: () => "branch " + number + " of " + name });
        });
    }
}

// How many moves each state is from the first one; states that aren't reached come last.
function farOf(level) {
    const far = new Map([[level.StartAt, 0]]);
    for (const [name, row] of far) {
        for (const [next] of nextOf(level.States[name] || {})) {
            if (!far.has(next) && level.States[next]) far.set(next, row + 1);
        }
    }
    const last = Math.max(...far.values());
    for (const name of Object.keys(level.States)) {
        if (!far.has(name)) far.set(name, last + 1);
    }
    return far;
}

function nextOf(state) {
    const found = [];
    if (state.Next) found.push([state.Next, "Next"]);
    for (const choice of state.Choices || []) if (choice.Next) found.push([choice.Next, "Choice"]);
    if (state.Default) found.push([state.Default, "Default"]);
    for (const catcher of state.Catch || []) if (catcher.Next) found.push([catcher.Next, "Catch"]);
    return found;
}

function innerOf(state) {
    const inner = state.Branches || [state.ItemProcessor || state.Iterator].filter(Boolean);
    return inner.filter((level) => level && level.States);
}

function stateBox(id, name, state) {
    const more = [state.Type, state.Resource ? String(state.Resource).split(":").pop() : "", state.Retry ? "retries" : ""].filter(Boolean).join(", ");
    const kind = state.Type === "Task" ? "call" : ["Parallel", "Map"].includes(state.Type) ? "fork" : "plain";
    return {
        id, w: 180, h: 52, label: () => name + ", " + more,
        draw: () => el("div", { class: "box kind-" + kind + (state.Type === "Fail" ? " failed" : ""), title: name },
            el("span", { class: "state" }, el("bdi", null, short(name, 60))), el("span", { class: "about" }, more)),
    };
}

// ---- a new definition

addView("define", {
    under: "machines",
    title: () => "Define a machine",
    key: () => "",
    open: async () => new DefineView(),
});

class DefineView {
    constructor() {
        this.name = el("input", { name: "Name", required: true, pattern: NAME, spellcheck: "false", autocomplete: "off", maxlength: "64" });
        this.text = el("textarea", {
            name: "Definition", rows: "20", spellcheck: "false", class: "code", placeholder: "Paste a definition in Amazon States Language, or drop its file here",
            input: later(300, () => this.check()),
            dragover: (event) => event.preventDefault(),
            drop: (event) => this.dropped(event),
        });
        this.faults = el("div", { class: "faults", role: "status" });
        this.go = busyButton("Define", () => this.define(), { class: "main" });
        const field = (text, made) => el("label", { class: "field" }, el("span", null, text), made);
        this.element = el("section", { class: "view form" }, el("h1", null, "Define a machine"),
            el("p", { class: "note" }, "A machine can't be changed or removed once it is defined: a new version gets a new name."),
            field("Name", this.name), field("Definition", this.text), el("div", { class: "acts" }, this.go), this.faults);
    }

    opened() {
        this.name.focus();
    }

    news() {}

    async dropped(event) {
        const file = event.dataTransfer.files[0];
        if (!file) return;
        event.preventDefault();
        this.text.value = await file.text();
        if (!this.name.value) this.name.value = file.name.replace(/(\.asl)?\.json$/, "").replace(/[^A-Za-z0-9_-]/g, "-").slice(0, 64);
        await this.check();
    }

    async check() {
        const text = this.text.value;
        if (!text.trim()) {
            fill(this.faults);
            return true;
        }
        const told = await give("/lint", { definition: text });
        if (told === null || told.status !== 200 || text !== this.text.value) return false;
        const { findings, count } = told.value;
        const errors = findings.filter((one) => one.severity === "error").length;
        fill(this.faults, el("h2", null, count ? counted(errors, "error") + ", " + counted(count - errors, "warning") : "The linter finds nothing"),
            el("ul", { class: "findings" }, findings.map((one) => this.drawFinding(one))));
        return errors === 0;
    }

    drawFinding(one) {
        return el("li", { class: one.severity },
            button("line " + one.line + ", column " + one.column, () => this.point(one), { class: "small" }), " ",
            el("b", null, one.severity), " ", shown(one.message), one.help ? el("span", { class: "note" }, ": " + shown(one.help)) : null);
    }

    // Puts the caret where a fault is.
    point(one) {
        const lines = this.text.value.split("\n");
        const start = lines.slice(0, one.line - 1).reduce((sum, line) => sum + line.length + 1, 0) + one.column - 1;
        const end = this.text.value.indexOf("\n", start);
        this.text.focus();
        this.text.setSelectionRange(start, end < 0 ? this.text.value.length : end);
        this.text.scrollTop = (this.text.scrollHeight * (one.line - 5)) / lines.length;
    }

    async define() {
        if (!this.name.reportValidity()) return;
        let text;
        try {
            text = jsonText(readJson(this.text.value));
        } catch (fault) {
            await this.check();
            return;
        }
        const told = await give("/line", { line: "define " + this.name.value + " " + text });
        if (told === null) return;
        if (told.status !== 200) {
            sayRefusal(told.value);
            await this.check();
            return;
        }
        await app.source.catchUp();
        notice(this.name.value + " is defined.", "good");
        go({ machine: this.name.value });
    }
}
})();
