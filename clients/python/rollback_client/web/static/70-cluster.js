// A book on three machines: in the head whether all is well, and a view of who leads and how far the others are.
(function () {
"use strict";
const { addView, app, counted, el, fill, link, slots, steadily } = rollback;
const { read } = rollback.console;
const LOOKS_AGAIN = 3000; // milliseconds

// What is known of the cluster: as the server said last, or why it doesn't say it.
let known = null;
const heard = new Set();

async function lookAtCluster() {
    const told = await read("/cluster").catch((fault) => ({ fault: fault.message, servers: [], etcd: [], alarms: [], is_well: false, leader: null }));
    known = told;
    for (const hear of heard) hear();
}

function shortText(told) {
    if (told.fault) return "Cluster: " + told.fault;
    const count = told.servers.filter((server) => server.does === "stands by").length;
    const who = told.leader === null ? "Nobody leads" : told.leader === told.here ? "Leads" : told.leader + " leads";
    return who + ", " + count + (count === 1 ? " stands by" : " stand by");
}

const headBefore = slots.head;

slots.head = () => {
    const made = link("#cluster", "", { class: "cluster", hidden: true });
    heard.add(() => {
        made.hidden = false;
        made.classList.toggle("wrong", !known.is_well);
        made.title = known.is_well ? "All machines are well" : "Not all machines are well: look";
        const text = shortText(known);
        if (made.textContent !== text) made.textContent = text;
    });
    return [headBefore ? headBefore() : null, made];
};

// Looks now and again, as long as the page is seen. A book of one machine has no cluster.
const look = steadily(async () => {
    if (!document.hidden && app.source && app.source.about.cluster) await lookAtCluster();
});

function watchCluster() {
    if (!app.source.about.cluster) return;
    look();
    setInterval(look, LOOKS_AGAIN);
}

addView("cluster", {
    title: () => "Cluster",
    key: () => "",
    open: async () => new ClusterView(),
});

const lines = (count) => (count === null || count === undefined ? "" : count.toLocaleString("en"));
const megabytes = (size) => (size / 1e6).toFixed(1) + " MB";

class ClusterView {
    constructor() {
        this.lead = el("p", { class: "lead" });
        this.servers = el("div");
        this.etcd = el("div");
        this.alarms = el("div");
        this.element = el("section", { class: "view runner" }, el("h1", null, "Cluster"),
            el("div", { class: "flow" }, this.lead, el("h2", null, "Servers"), this.servers,
                el("h2", null, "Members of etcd"), this.etcd, this.alarms));
        this.hear = () => this.draw();
        heard.add(this.hear);
        if (known) this.draw();
        look();
    }

    close() {
        heard.delete(this.hear);
    }

    draw() {
        const told = known;
        const who = told.leader === null ? "nobody leads" : told.leader + " leads";
        this.lead.textContent = told.fault ? "It isn't known: " + told.fault + "."
            : "Book " + told.book + ": " + who + (told.lines === null ? "" : ", and the log has " + counted(told.lines, "line")) + ".";
        fill(this.servers, table(["Server", "Does", "Lines", "Behind", "Version", "Note"], told.servers.map((one) => {
            const note = one.why || (one.address === told.here ? "this server" : "");
            return [one.address, one.does, lines(one.lines), lines(one.behind), one.version, note];
        })));
        fill(this.etcd, table(["Member", "Answers", "Leads etcd", "Size", "Version"], told.etcd.map((one) => {
            const size = one.answers ? megabytes(one.size) : "";
            return [one.url, one.answers ? "yes" : "no", one.leads ? "yes" : "", size, one.version];
        })));
        fill(this.alarms, told.alarms.map((alarm) => el("p", { class: "fault-text" }, "Alarm of etcd: " + alarm + ".")));
    }
}

function table(titles, rows) {
    if (!rows.length) return el("p", { class: "empty" }, "None is known.");
    return el("table", { class: "rows" }, el("thead", null, el("tr", null, titles.map((title) => el("th", { scope: "col" }, title)))),
        el("tbody", null, rows.map((row) => el("tr", null, row.map((cell) => el("td", null, cell))))));
}

Object.assign(rollback.console, { watchCluster });
})();
