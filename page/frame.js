// The page: connects the report, the filters, the lists and the views.

// The most items that are printed at once.
const PRINTED = 500;
// The time in milliseconds between two looks at how much of the report has arrived.
const PAUSE = 20;
// The time in milliseconds after which the address names the item that is shown.
const STAY = 300;
// The parts of a step that can have the focus.
const WORKED = ":is(button, .still)";
// The widths at which the lists are above the view; frame.css has the same.
const NARROW = "(max-width: 820px)";

/** Returns the element with this ID. */
function byId(id) {
  return document.getElementById(id);
}

/** Returns a text, as a button if there is something to list. */
function lister(words, title, list) {
  if (list === null) return words;
  const button = make("button", {type: "button", class: "lister", title, "aria-label": `${words}. ${title}`}, words);
  button.addEventListener("click", list);
  return button;
}

/** Returns the table of counts. If a list has the items that a count is of, a click on the count lists them. */
function sumsView(sums, list) {
  const head = make("tr", {}, ...["", ...VERDICTS.map(badge), "all"].map((it) => make("th", {scope: "col"}, it)));
  const rows = ["traces", "dialogues"].map((what) => {
    const counts = VERDICTS.map((it) => sums[what][it]), all = counts.reduce((one, other) => one + other, 0);
    const isListed = (it) => sums[what][it] > 0 && (what === "traces" || it !== "pass");
    const cells = VERDICTS.map((it) => lister(sums[what][it].toLocaleString("en"), `Lists the ${what} whose verdict is ${it}`,
      isListed(it) ? () => list(what, "verdict", it) : null));
    return make("tr", {}, ...[make("th", {scope: "row"}, what)], ...[...cells, all.toLocaleString("en")].map((it) => make("td", {}, it)));
  });
  const unheard = lister(`${sums.unheard.toLocaleString("en")} pass ${UNHEARD}`, "Lists the traces that have such dialogues",
    sums.unheard > 0 ? () => list("traces", "words", "unheard") : null);
  return [make("table", {}, head, ...rows), make("p", {class: "small"}, `${counted(sums.messages, "message")}; `, unheard)];
}

/** Returns notes on a report that is incomplete. */
function notesOn({dialogues, total, unread, isRead}) {
  const notes = [], count = dialogues.length.toLocaleString("en");
  if (!isRead) return [make("p", {class: "note"}, `The report is being read: ${count} dialogues so far.`)];
  if (total === null) {
    notes.push("This report is not whole: the run was stopped before its end. "
      + "The sums are of the traces that were judged to their ends.");
  }
  if (unread > 0) notes.push(`${counted(unread, "line")} of the report can't be read.`);
  if (total?.left_out > 0) {
    const left = total.left_out.toLocaleString("en");
    notes.push(`${left} of the dialogues that do not pass are not in this page, which has the first ${count}.`);
  }
  return notes.map((it) => make("p", {class: "note"}, it));
}

/** Returns the words on the program that judged, or an empty text if the report does not have its version. */
function versionWords({total}) {
  return total?.version === undefined ? "" : `Judged by tcapjudge ${seen(total.version)}`;
}

/** Returns the kinds of fault, each with its words. */
function kindsView() {
  const rows = Object.keys(KINDS).map((kind) => make("div", {}, make("dt", {}, kind), make("dd", {}, wordsOfKind(kind))));
  return make("dl", {}, ...rows);
}

/** The page of a report. */
class Page {
  constructor(report) {
    this.report = report;
    this.form = byId("filters");
    this.shown = byId("shown");
    this.lists = {
      dialogues: new RowList(byId("dialogues"),
        {row: (it) => rowOf(it, this.folder), chosen: (it) => this.choose(it), clicked: () => this.uncover(),
          entered: () => this.enter()}),
      traces: new RowList(byId("traces"),
        {row: (it) => traceRow(it, this.folder), chosen: (it) => this.choose(it), clicked: () => this.uncover(),
          entered: (it) => this.listTrace(it)}),
    };
    this.listed = {dialogues: [], inError: [], rows: [], traces: []};
    this.folder = "";
    this.fragment = window.location.hash;
    byId("kinds").append(kindsView());
    this.hear();
  }

  /** Shows the report as far as it has arrived, and follows the address once its target has arrived. */
  renew() {
    if (this.report.run !== null) {
      this.showRun(this.report.run);
      return;
    }
    this.folder = folderOf(this.report);
    fillFilters(this.form, this.report, this.folder);
    const list = (...what) => this.listBy(...what);
    if (this.report.isRead) byId("sums").replaceChildren(...sumsView(sumsOf(this.report), list));
    byId("notes").replaceChildren(...notesOn(this.report));
    byId("version").textContent = versionWords(this.report);
    if (!this.isUsed) this.chosen = firstFailing(this.report);
    this.refresh();
    if (this.follow(this.fragment)) this.fragment = "";
  }

  /** Connects each control with its action. */
  hear() {
    for (const name of ["click", "keydown", "input"]) document.addEventListener(name, () => (this.isUsed = true), {capture: true});
    for (const name of ["input", "change"]) this.form.addEventListener(name, () => this.ask());
    this.form.addEventListener("submit", (event) => this.submit(event));
    byId("clear").addEventListener("click", () => this.clear());
    byId("print-listed").addEventListener("click", () => this.printListed());
    for (const name of Object.keys(this.lists)) byId(`tab-${name}`).addEventListener("click", () => this.turnTo(name));
    byId("tabs").addEventListener("keydown", (event) => this.turnBy(event));
    this.shown.addEventListener("click", (event) => this.leap(event.target));
    this.shown.addEventListener("keydown", (event) => this.leave(event));
    byId("lists").addEventListener("keydown", (event) => this.leaveList(event));
    window.addEventListener("hashchange", () => this.follow(window.location.hash));
    window.addEventListener("afterprint", () => this.unprint());
  }

  /** Returns the values of the filters as a text. */
  formText() {
    return String(new URLSearchParams(new FormData(this.form)));
  }

  /** Lists again if the filters have changed. After `input` a click on a row also causes `change`, and a list that is
   * drawn again would not notice the click. */
  ask() {
    if (this.formText() !== this.asked) this.refresh();
  }

  /** On Enter in the search, moves the focus to the list. */
  submit(event) {
    event.preventDefault();
    this.ask();
    this.list().box.focus();
  }

  /** Lists the items that the filters ask for. Chooses the item that was chosen before, or else the first. */
  refresh() {
    const now = listed(this.report, askedOf(this.form));
    this.listed = now;
    this.asked = this.formText();
    const at = Math.max(0, now.rows.indexOf(this.chosen));
    this.lists.dialogues.list(now.rows, Math.min(at, now.rows.length - 1));
    this.lists.traces.list(now.traces, -1);
    this.tellCounts(now);
    if (now.rows.length === 0) this.showNone();
    else this.choose(now.rows[at]);
  }

  /** Shows how many items are listed. */
  tellCounts(now) {
    const inError = now.inError.length > 0 ? `, ${counted(now.inError.length, "trace")} in error` : "";
    const said = Object.keys(this.lists).map((name) => {
      const [count, all] = [now[name].length, this.report[name].length].map((it) => it.toLocaleString("en"));
      const words = name === "traces" ? `Traces ${count} of ${all}` : `Dialogues ${count} of ${all}${inError}`;
      return byId(`tab-${name}`).textContent = words;
    });
    byId("listed").textContent = `${said.join(". ")}.`;
  }

  /** Lists the items that one filter or word leaves, in the list of dialogues or of traces. */
  listBy(name, filter, value) {
    this.form.reset();
    this.form.elements[filter].value = value;
    this.refresh();
    this.turnTo(name);
    this.list().box.focus();
  }

  /** Shows a chosen dialogue or trace. Names it in the address after a while, since browsers limit how often the
   * address may change. */
  choose(item) {
    const {report} = this;
    if (this.listed.rows.includes(item)) this.chosen = item;
    this.view(item, () => this.viewOf(item, ""), endNamesOf(item, report));
    this.name(isTrace(item) ? fragmentOfTrace(item, report) : fragmentOf(item, report));
  }

  /** Writes a fragment into the address after a while. */
  name(fragment) {
    clearTimeout(this.timer);
    this.timer = setTimeout(() => window.history.replaceState(null, "", fragment), STAY);
  }

  /** Returns the view of a dialogue or a trace; `note` is a further note on a trace. */
  viewOf(item, note) {
    if (!isTrace(item)) return dialogueView(item, endNamesOf(item, this.report));
    const count = this.report.dialogues.filter((it) => it.trace === item.number).length;
    return traceView(item, count, () => this.listTrace(item), note);
  }

  /** Shows a run, without lists. */
  showRun(run) {
    document.body.classList.add("of-run");
    document.title = run.title;
    document.querySelector("h1").textContent = "A run, step by step";
    byId("sums").replaceChildren();
    this.view(run, () => runView(run));
  }

  /** Shows that no dialogue is listed, and offers the listed traces if there are any. */
  showNone() {
    const count = this.listed.traces.length, isAsked = [...new FormData(this.form).values()].some((it) => it !== "");
    const words = isAsked || this.report.dialogues.length > 0 ? "No dialogue is listed: the filters leave none."
      : "No dialogue is listed. Those that pass are only counted.";
    const which = count === 1 ? "the trace" : `the ${count.toLocaleString("en")} traces`;
    const button = make("button", {type: "button"}, `Show ${which} that the filters leave`);
    button.addEventListener("click", () => this.turnToTraces());
    this.chosen = null;
    this.view(null, () => make("p", {class: "empty"}, words, ...(isAsked && count > 0 ? [" ", button] : [])));
  }

  /** Turns to the list of traces, and chooses the first. */
  turnToTraces() {
    this.turnTo("traces");
    this.lists.traces.choose(0);
    this.list().box.focus();
  }

  /** Shows the view that `made` returns for an item, unless that item is shown already with these names of its ends. */
  view(item, made, names = NO_NAMES) {
    if (item !== null && item === this.viewed && names === this.viewedNames) return;
    Object.assign(this, {viewed: item, viewedNames: names});
    this.shown.replaceChildren(made());
    this.shown.scrollTop = 0;
  }

  /** Moves the focus from the list to the view: to the message at fault, or else to the heading. */
  enter() {
    (this.shown.querySelector(`.step.fault ${WORKED}`) ?? this.shown.querySelector("h2"))?.focus();
  }

  /** Moves the focus to the view if the view is below the list. */
  uncover() {
    if (window.matchMedia(NARROW).matches) this.enter();
  }

  /** On Escape, moves the focus from the list to the search. */
  leaveList(event) {
    if (event.key === "Escape") this.form.elements.words.focus();
  }

  /** On Escape, closes the message with the focus, or else moves the focus to the list. */
  leave(event) {
    if (event.key !== "Escape") return;
    const open = event.target.closest(".step")?.querySelector("button[aria-expanded=true]") ?? null;
    if (open === null) this.list().box.focus();
    else open.click();
    open?.focus();
  }

  /** Returns the list in view. */
  list() {
    return byId("panel-traces").hidden ? this.lists.dialogues : this.lists.traces;
  }

  /** Moves the focus to the entry that a button names. */
  leap(button) {
    if (!button.matches(".leap")) return;
    const step = button.closest("article").querySelector(`[data-entry="${button.dataset.to}"]`);
    step.scrollIntoView({block: "center"});
    step.querySelector(WORKED).focus();
  }

  /** Turns to a list. */
  turnTo(name) {
    for (const it of Object.keys(this.lists)) {
      byId(`panel-${it}`).hidden = it !== name;
      byId(`tab-${it}`).setAttribute("aria-selected", it === name);
      byId(`tab-${it}`).tabIndex = it === name ? 0 : -1;
    }
    this.lists[name].reveal();
  }

  /** Turns to the other list on an arrow key. */
  turnBy(event) {
    if (event.key !== "ArrowLeft" && event.key !== "ArrowRight") return;
    const name = byId("panel-traces").hidden ? "traces" : "dialogues";
    this.turnTo(name);
    byId(`tab-${name}`).focus();
  }

  /** Lists the dialogues of a trace that do not pass. If there are none, moves the focus to the view of the trace. */
  listTrace(trace) {
    if (!this.report.dialogues.some((it) => it.trace === trace.number)) {
      this.enter();
      return;
    }
    this.form.reset();
    chooseTrace(this.form, trace, this.folder);
    this.refresh();
    this.turnTo("dialogues");
    this.list().box.focus();
  }

  /** Clears the filters, and so lists everything. */
  clear() {
    this.form.reset();
    this.refresh();
  }

  /** Follows a fragment, and returns whether its target is there. Until the report is read, a missing target may
   * still arrive. */
  follow(fragment) {
    const dialogue = dialogueAt(fragment, this.report), trace = traceAt(fragment, this.report);
    if (dialogue !== undefined) {
      this.goTo("dialogues", dialogue);
    } else if (this.report.isRead && trace !== undefined) {
      const [, number] = namesIn(fragment);
      this.goTo("traces", trace);
      if (number !== null) this.tellMissing(fragment, () => this.viewOf(trace, missingIn(trace, number, this.report)));
    } else {
      if (this.report.isRead) this.sayMissing(fragment);
      return false;
    }
    this.uncover();
    return true;
  }

  /** Chooses a dialogue or a trace in its list, and clears the filters if they leave it out. */
  goTo(name, item) {
    this.isUsed = true;
    const rows = () => (name === "traces" ? this.listed.traces : this.listed.rows);
    if (!rows().includes(item)) this.clear();
    this.turnTo(name);
    this.lists[name].choose(rows().indexOf(item));
  }

  /** Shows that the target of a fragment is not in the page, if the fragment names one. */
  sayMissing(fragment) {
    const words = missingAt(fragment);
    if (words === "") return;
    this.lists.dialogues.list(this.listed.rows, -1);
    this.tellMissing(fragment, () => make("p", {class: "note"}, words));
  }

  /** Shows a view for a fragment whose target is not in the page, and keeps the fragment in the address. */
  tellMissing(fragment, made) {
    this.view(null, made);
    this.name(fragment);
  }

  /** Prints the listed traces in error and dialogues, as far as PRINTED allows. */
  printListed() {
    const {rows} = this.listed;
    const note = rows.length > PRINTED
      ? make("p", {class: "note"}, `The first ${PRINTED} of ${rows.length.toLocaleString("en")} that are listed.`) : "";
    byId("printed").replaceChildren(note, ...rows.slice(0, PRINTED).map((it) => this.viewOf(it, "")));
    document.body.classList.add("prints-listed");
    window.print();
  }

  /** Removes the printed items from the page. */
  unprint() {
    document.body.classList.remove("prints-listed");
    byId("printed").replaceChildren();
  }
}

/** Shows the first part of the report as soon as it has arrived, and the whole report at the end. */
function begin() {
  const reader = new Reader(), page = new Page(reader.report);
  const textNow = () => byId("report")?.textContent ?? "";
  let timer = null;
  const look = () => {
    reader.take(textNow());
    if (reader.report.dialogues.length > 0) page.renew();
    else timer = setTimeout(look, PAUSE);
  };
  look();
  document.addEventListener("DOMContentLoaded", () => {
    clearTimeout(timer);
    reader.close(textNow());
    page.renew();
  });
}

begin();
