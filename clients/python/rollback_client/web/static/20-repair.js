// Taking steps back: the plan's head, the question before it, holds, and what is ready again.
(function () {
"use strict";
const {
    addView, addressOf, app, busyButton, button, copyButton, counted, el, executionLink, executionOf, fill, go, link, notice, showDialog,
    shown, slots, stepLink,
} = rollback;
const { give, giveLine, read, sayRefusal } = rollback.console;
const MOST_PAUSED = 50;
const results = new Map(); // what a rollback took back, by its step

const about = () => app.source.about;
const canGive = () => !about().read_only;

// ---- the plan

slots.plan = (answer, view) => {
    if (!canGive()) return el("p", { class: "note" }, "This console is read-only: roll back by another caller.");
    const steps = counted(answer.count, "step");
    return [
        busyButton("Roll back " + steps, () => asked(answer, view, false), { class: "danger", "data-does": "rollback" }),
        busyButton("Hold", () => asked(answer, view, true), { title: "Lets nothing build on these steps, while you take them back one by one" }),
        el("code", { class: "line-shown" }, "rollback " + answer.step), copyButton("rollback " + answer.step, "the line"),
        runnerNote(answer),
    ];
};

function runnerNote(answer) {
    if (!about().runs || isPaused(answer.executions)) return null;
    const pause = busyButton("Pause these first", () => pauseAll(answer.executions), { "data-does": "pause-first" });
    return el("p", { class: "warning" },
        "The runner goes on: of executions that remain it takes these steps again at once. ", pause);
}

function isPaused(executions) {
    const paused = new Set(about().paused.map(([kind, name]) => kind + " " + name));
    return paused.has("all ") || executions.every((name) => paused.has("execution " + name));
}

async function pauseAll(executions) {
    const lines = executions.length > MOST_PAUSED ? ["!pause"] : executions.map((name) => "!pause execution " + name);
    for (const line of lines) {
        if ((await giveLine(line)) === null) return;
    }
    notice(lines.length === 1 && lines[0] === "!pause" ? "All executions are paused." : counted(executions.length, "execution is", "executions are") + " paused.", "good");
}

// Asks once, with the numbers that were shown. The focus is on Cancel.
function asked(answer, view, isHold) {
    const steps = counted(answer.count, "step");
    const of = " of " + counted(answer.executions.length, "execution");
    const items = counted(answer.items.length, "item changes", "items change");
    const says = isHold
        ? "Until it ends, no new step builds on these " + steps + ". A hold ends only when its own step, " + answer.step + ", is taken back: undo the steps one by one."
        : "They go together, and " + items + ". Afterwards the executions that remain are ready again at an earlier state.";
    const title = (isHold ? "Hold " : "Roll back ") + steps + of + "?";
    const does = (isHold ? "Hold " : "Roll back ") + steps;
    return new Promise((done) => {
        const dialog = showDialog(title, [el("p", null, says), runnerNote(answer)],
            [["Cancel", null], [does, () => { started = true; done(given(answer, view, isHold)); }, isHold ? "main" : "danger"]]);
        let started = false;
        dialog.addEventListener("close", () => setTimeout(() => { if (!started) done(); }));
    });
}

async function given(answer, view, isHold) {
    const plan = answer.steps.map((row) => row.step);
    const told = await give("/rollback", { step: answer.step, plan, hold: isHold });
    if (told === null) return;
    if (told.status === 200) {
        if (!isHold) {
            const names = told.value.reply.trim().split("\n").slice(1);
            results.set(answer.step, { steps: names, executions: answer.executions });
            go({ taken: answer.step });
        } else {
            notice(counted(answer.count, "step is", "steps are") + " held. Undo them one by one.", "good");
        }
        await app.source.catchUp();
        return;
    }
    if (told.value.changed) {
        notice("The plan has changed, and nothing was done: " + counted(told.value.plan.length, "step") + " now. Look at it again.", "fault", true);
        await view.load();
        return;
    }
    sayRefusal(told.value);
}

// ---- what was taken back

addView("taken", {
    under: "overview",
    title: (params) => params.get("taken") + " taken back",
    key: (params) => params.get("taken"),
    open: async (params) => {
        const view = new TakenView(params.get("taken"));
        await view.load();
        return view;
    },
});

class TakenView {
    constructor(step) {
        this.step = step;
        this.ready = el("div", { class: "ready" });
        this.again = rollback.steadily(() => this.drawReady());
        this.element = el("section", { class: "view taken" });
    }

    async load() {
        const result = results.get(this.step);
        const steps = result ? result.steps : [];
        const executions = result ? result.executions : [executionOf(this.step)];
        this.executions = executions;
        fill(this.element,
            el("h1", null, result ? counted(steps.length, "step was", "steps were") + " taken back" : shown(this.step) + " was taken back"),
            el("div", { class: "flow" },
                await takenText(this.step),
                result ? el("details", null, el("summary", null, "The steps"), el("p", { class: "names" }, steps.map((step) => el("bdi", { class: "chip" }, step)))) : null,
                el("h2", null, "What is ready again"), this.ready));
        await this.drawReady();
    }

    async drawReady() {
        const names = this.executions.slice(0, 100);
        const drawn = JSON.stringify(names.map((name) => app.source.rowOf.get(name) || null));
        if (drawn === this.drawn) return;
        this.drawn = drawn;
        const rows = [];
        for (const name of names) {
            if (!app.source.rowOf.has(name)) {
                rows.push(el("tr", null, el("td", null, el("bdi", null, name)), el("td", { colspan: "2", class: "empty" }, "is gone: its start was taken back")));
                continue;
            }
            const row = app.source.rowOf.get(name);
            rows.push(el("tr", null, el("td", null, executionLink(name)), el("td", null, row.state === null ? row.status : "before " + shown(row.state)),
                el("td", null, rollback.console.moves(name, row.status))));
        }
        fill(this.ready, el("table", { class: "changes" }, el("tbody", null, rows)),
            el("p", null, link("#overview", "All executions"), " \u00b7 ", link("#log", "What happened")));
    }

    news(news) {
        if (news.all || this.executions.some((name) => news.executions.has(name))) this.again();
    }
}

async function takenText(step) {
    const { by } = await read("/taken?step=" + encodeURIComponent(step)).catch(() => ({ by: null }));
    if (!by) return el("p", null, "Nobody took it back lately: it was never taken, or settled, or taken back long ago.");
    const whom = by.who ? " by " + by.who : "";
    const when = by.when ? " at " + rollback.timeText(by.when) : "";
    const unknown = by.who ? "" : ". Who and when isn't known: this server began later" + (about().has_log ? "." : ", and keeps no log.");
    return el("p", { class: "lead" }, el("b", null, shown(step)), " was taken back" + whom + when + ", by ", el("code", null, by.command),
        ", entry " + by.entry + unknown);
}

slots.missing = async (params) => {
    const step = params.get("at") || params.get("step");
    return step ? [await takenText(step)] : [];
};

// ---- one step

slots.step = (row, answer) => {
    if (!canGive()) return null;
    const made = [copyButton("rollback " + row.step, "the line rollback " + row.step)];
    made[0].textContent = "Copy rollback line";
    if (!answer.dependents.length) {
        made.unshift(busyButton("Undo", async () => {
            const reply = await giveLine("undo " + row.step);
            if (reply !== null) {
                results.set(row.step, { steps: [row.step], executions: [executionOf(row.step)] });
                go({ taken: row.step });
            }
        }, { class: "small", title: "Takes back this step alone: nothing depends on it" }));
    }
    return made;
};

// ---- a hold

async function undoNext() {
    const told = await give("/line", { line: "held" });
    if (told === null) return;
    if (told.status !== 200) {
        sayRefusal(told.value);
        return;
    }
    const names = told.value.reply.trim().split("\n").slice(1);
    if (!names.length) {
        notice("Nothing is held any more.");
        return;
    }
    if ((await giveLine("undo " + names[0])) !== null) notice(names[0] + " is taken back. " + (names.length - 1) + " left of the hold.", "good");
}

slots.head = () => {
    const made = el("div", { class: "held", hidden: true });
    rollback.console.drawHeld = () => {
        const { held } = app.source;
        made.hidden = !held;
        const text = held ? held.step + " " + held.left : "";
        if (made.dataset.text === text) return;
        made.dataset.text = text;
        if (held) {
            fill(made, "Held: ", stepLink(held.step, { show: "plan" }), ", " + counted(held.left, "step") + " left ",
                canGive() ? busyButton("Undo the next held step", undoNext, { class: "small" }) : null);
        }
    };
    return made;
};

Object.assign(rollback.console, { canGive, takenText, isPaused });
})();
