// The view of a run (Q.774 3.2 and 3.3): one way in which the entries of a record can have come about. Its steps are
// rows of the ladder. A message that is received directly after it is sent has one row. A message that is received
// later has a row where it leaves and one where it arrives, and a line on the side of its receiver joins the two.

const LEAVES = {from: 0, to: 50, tip: "head"};
const COMES = {from: 50, to: 100, tip: "head"};
// The class of the badge of each verdict.
const BADGES = {LAWFUL: "pass", REFUTED: "fail", UNDECIDED: "inconc", "NOT SHOWN": "inconc"};

/** Returns the other end. */
function otherEnd(end) {
  return end === "A" ? "B" : "A";
}

/** Returns a tag with words on what a message does or what happens to it. */
function tag(words) {
  return make("span", {class: "mark tag"}, words);
}

/** The rows of a run, made step by step. */
class RunRows {
  constructor({entries, of}) {
    Object.assign(this, {of, rows: [], sent: new Map(), spans: {A: [], B: []}});
    this.messages = new Map(entries.map((it) => [it.entry, it]));
    this.operations = operationsIn(entries);
  }

  /** Adds a row, and returns it. */
  add(row) {
    this.rows.push({label: "", entry: null, from: null, ids: "", more: "", parts: [], place: "", tags: [], ...row,
      number: this.rows.length});
    return this.rows.at(-1);
  }

  /** Adds a row of words, and returns it. */
  say(title, end) {
    return this.add({title, at: end});
  }

  /** Adds the row of an entry, with an arrow and tags, and returns it. */
  send(number, arrow, ...words) {
    const row = this.add({...stepOf(this.messages.get(number), this.operations), arrow, tags: words.map(tag)});
    this.sent.set(number, row);
    return row;
  }

  /** Adds the row of an entry that an end sends. If this end is judged alone, its message is not followed further. */
  sends({end, entry}, ...words) {
    const row = this.send(entry, end === this.of ? WHOLE : LEAVES, ...words);
    row.isOnItsWay = end !== this.of;
  }

  /** Adds the arrival of a message: in the row of its sending if that is the last row, else in a new row. */
  come(end, number, tip, ...words) {
    const sent = this.sent.get(number), tags = words.map(tag);
    if (sent !== undefined) sent.isOnItsWay = false;
    if (sent !== undefined && this.rows.at(-1) === sent) {
      sent.arrow = {...WHOLE, tip};
      sent.tags.push(...tags);
      return;
    }
    const shown = sent ?? {title: "Message", ids: "", detail: () => [make("p", {}, "Its entry is left out.")]};
    const {title, ids, detail} = shown;
    const row = this.add({title, ids, detail, label: String(number), from: otherEnd(end), arrow: {...COMES, tip},
      way: ` comes to ${end} `, tags: [tag(`comes to ${end}`), ...tags]});
    if (sent === undefined) return;
    sent.tags.push(tag("comes later"));
    this.spans[end].push([sent.number, row.number]);
  }

  /** Adds a step of the run. */
  step(it) {
    const {step, end, entry} = it;
    if (step === "sends" || step === "tells") this.sends(it);
    else if (step === "receives") this.come(end, entry, "head");
    else if (step === "discards") this.come(end, entry, "cross", `${end} can't receive it: ${it.reason}`);
    else if (step === "loses") this.lose(end, entry);
    else if (step === "expires") this.say(`${end}: invocation ${it.invoke} of ${it.half} ends unseen`, end);
    else if (step === "closes") this.say(`${end}: ${it.half} closes unseen`, end);
    else if (step === "replies") this.reply(it);
    else if (step === "stands") this.stand(entry);
    else this.send(entry, null);
  }

  /** Marks a message as lost. */
  lose(end, number) {
    const sent = this.sent.get(number);
    if (sent === undefined || end === this.of) return;
    sent.isOnItsWay = false;
    sent.arrow = {...LEAVES, tip: "cross"};
    sent.tags.push(tag(this.of === undefined ? "taken as lost" : `taken as lost before ${this.of}`));
  }

  /** Adds the row of a provider's answer, after the arrival of the message that it answers. */
  reply(it) {
    this.come(it.end, it.answers, "head");
    this.sends(it, `${it.end}'s provider answers ${it.answers}`);
  }

  /** Adds the row of an entry after the last step. */
  stand(number) {
    if (!this.isStopped) this.say("The steps end here. The entries below stand as they are recorded.");
    this.isStopped = true;
    this.send(number, {...LEAVES, isDotted: true});
  }

  /** Tags the messages that are in transit at the end of the run. */
  end() {
    for (const row of this.rows.filter((it) => it.isOnItsWay)) row.tags.push(tag("on its way at the end"));
  }

  /** Marks the entry where the verdict falls, with words. */
  mark(number, kind, words) {
    const row = this.sent.get(number) ?? this.say("Behind the last entry");
    row.isMarked = kind;
    row.tags.unshift(make("strong", {class: `mark ${kind}`}, words));
  }

  /** Returns the lines next to the ladder, for the messages that arrive late. */
  lines() {
    const ends = ENDS.filter((end) => this.spans[end].length > 0);
    return ends.map((end) => ({end, spans: this.spans[end], by: new Set(this.spans[end].flat())}));
  }
}

/** Adds a row that counts the steps left out, if there are any. */
function sayLeftOut(made, count, where) {
  if (count > 0) made.say(`${counted(count, "step")} ${where} ${count === 1 ? "is" : "are"} left out.`);
}

/** Returns the word of a run's verdict, and the rest of its line. */
function verdictOf(title) {
  const word = Object.keys(BADGES).find((it) => title.startsWith(it)) ?? "";
  return [word, title.slice(word.length)];
}

/** Returns the first line of the reason for the verdict. */
function whyOf(text) {
  return seen(text.trim().split("\n")[0].replace(/^why: /, ""));
}

/** Returns the rows of a run. */
function rowsOf(run) {
  const made = new RunRows(run), [before, behind] = run.left_out;
  sayLeftOut(made, before, "above");
  for (const it of run.steps) made.step(it);
  sayLeftOut(made, behind, "below");
  if (behind === 0) made.end();
  if (run.marked !== undefined) {
    const [word] = verdictOf(run.title);
    made.mark(run.marked, BADGES[word] === "fail" ? "fault" : "doubtful", `${word}: ${whyOf(run.text)}`);
  }
  return made;
}

/** Returns the words above the lifeline of an end. */
function headOfEnd(end, of) {
  return end === of ? `${end}, judged alone` : end;
}

/** Returns the view of a run. */
function runView(run) {
  const {title, of, count, text} = run, made = rowsOf(run), [word, more] = verdictOf(title);
  const heads = ENDS.map((end) => [headOfEnd(end, of)]);
  const words = of === undefined ? null
    : fact("Judged", `${of} alone: nothing is asked of what ${otherEnd(of)} sends, nor of what it hears`);
  const why = text === undefined ? null : make("div", {class: "reasons"}, make("h3", {}, "Why"), reasonOf(text, null));
  return make("article", {class: "run"},
    make("h2", {tabindex: "-1"}, make("span", {class: `badge ${BADGES[word]}`}, word), more),
    make("dl", {class: "facts"}, fact("Entries", count.toLocaleString("en")), words),
    make("div", {class: "beside"}, ladder("The steps of the run", heads, made.rows, made.lines(), made.rows.length), why));
}
