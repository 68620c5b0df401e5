// The beginning: who has no token sees how to get one.
(async function () {
"use strict";
const { app, begin, el } = rollback;
const { ConsoleBook, read } = rollback.console;

let about;
try {
    about = await read("/book");
} catch (fault) {
    document.title = "rollback";
    document.body.append(el("main", { class: "missing" }, el("h1", null, "No book is shown here"), el("p", null, fault.message + "."),
        el("p", null, "Open the link that rollback-serve shows when it begins.")));
    return;
}
const book = new ConsoleBook(about);
book.heard.push(() => rollback.console.drawHeld());
try {
    await begin(book);
} catch (fault) {
    book.say(fault.message, true);
}
rollback.console.drawHeld();
book.follow();
rollback.console.watchCluster();
app.ready = true;
})();
