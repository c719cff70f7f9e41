// The report: the lines of JSON in the page. A run is alone in its page.

// In a JSON text a quote in a string comes after a backslash, so these characters are always a key and the start of
// its list.
const MESSAGES = ',"messages":[';
// The words for dialogues that pass although an end did not hear everything or did not answer.
const UNHEARD = "unheard or unanswered";
// The names of ends of which a trace says nothing.
const NO_NAMES = {};

/** Returns the object in a line, or null if there is none. */
function objectOf(line) {
  try {
    const found = JSON.parse(line);
    return typeof found === "object" ? found : null;
  } catch {
    return null;
  }
}

/** Returns the object in a line without its messages, which are read when they are needed. */
function headOf(line) {
  const at = line.indexOf(MESSAGES);
  return objectOf(at < 0 ? line : `${line.slice(0, at)}}`);
}

/** Returns whether an item is a trace; otherwise it is a dialogue. */
function isTrace(item) {
  return item.line === undefined;
}

/** Returns whether a trace is itself in error, and not only one of its dialogues. */
function isInError({head}) {
  return head.verdict === "error" && head.text !== undefined;
}

/** Returns the ends at fault of a dialogue, in the order of their entries at fault. */
function blamedEnds(head) {
  return ENDS.filter((end) => head[end]?.kind !== undefined).sort((one, other) => head[one].entry - head[other].entry);
}

/** Returns the trace of the next object. The object of a trace comes after those of its dialogues. */
function openTrace(report, name) {
  const last = report.traces.at(-1);
  if (last !== undefined && last.head.verdict === null) return last;
  report.traces.push({head: {trace: name, verdict: null}, number: report.traces.length});
  return report.traces.at(-1);
}

/** Adds the object in a line to the report. */
function addLine(report, line) {
  const head = headOf(line);
  if (head === null) {
    report.unread += 1;
  } else if (head.run !== undefined) {
    report.run = head.run;
  } else if (head.total !== undefined) {
    report.total = head;
  } else if (head.dialogue === undefined) {
    openTrace(report, head.trace).head = head;
  } else {
    const trace = openTrace(report, head.trace).number;
    report.dialogues.push({head, line, number: report.dialogues.length, trace, blamed: blamedEnds(head), words: null});
  }
}

/** A reader of a report that is still arriving. */
class Reader {
  constructor() {
    this.report = {dialogues: [], traces: [], total: null, run: null, unread: 0, isRead: false};
    this.from = 0;
  }

  /** Adds the lines that have arrived whole. */
  take(text) {
    for (let to = text.indexOf("\n", this.from); to >= 0; to = text.indexOf("\n", this.from)) {
      this.add(text.slice(this.from, to));
      this.from = to + 1;
    }
  }

  /** Adds the rest after everything has arrived. */
  close(text) {
    this.take(text);
    this.add(text.slice(this.from));
    this.report.isRead = true;
  }

  /** Adds a line, unless it is empty. */
  add(line) {
    if (line !== "") addLine(this.report, line);
  }
}

/** Returns the messages of a dialogue and the count of those left out, or null if they can't be read. */
function messagesOf(dialogue) {
  const whole = objectOf(dialogue.line);
  return whole && {messages: whole.messages ?? [], leftOut: whole.left_out ?? 0};
}

/** Returns the texts of the reasons of a dialogue. */
function reasonsIn(head) {
  const ends = ENDS.map((end) => head[end]).filter((it) => it !== undefined);
  return [head.text ?? "", ...ends.flatMap(({text, doubt}) => [text ?? "", doubt ?? ""])];
}

/** Returns the searched texts of a dialogue: its IDs and its lines, and in lower case its kinds of fault, the names
 * of its trace, its table and its operations, the comments, and the reasons. */
function wordsOf(dialogue) {
  if (dialogue.words === null) {
    const {head, blamed} = dialogue, messages = messagesOf(dialogue)?.messages ?? [];
    const parts = messages.flatMap((it) => it.components ?? []);
    const names = new Set(parts.flatMap((it) => it.split(" ")).filter((it) => !/^-?\d*$/.test(it)));
    const lower = (texts) => texts.join("\n").toLowerCase();
    dialogue.words = {ids: ENDS.flatMap((end) => head.ids[end]), lines: head.lines,
      kinds: blamed.map((end) => head[end].kind.toLowerCase()), names: lower([head.trace, head.table ?? "", ...names]),
      comments: lower(messages.map((it) => it.comment ?? "")), reasons: lower(reasonsIn(head))};
  }
  return dialogue.words;
}

/** Returns a count of 0 for each verdict. */
function noCounts() {
  return Object.fromEntries(VERDICTS.map((it) => [it, 0]));
}

/** Returns what the directives of a trace say of its ends, of a trace or of a dialogue of it. The object of the trace
 * has it, which comes after those of its dialogues. */
function endNamesOf(item, report) {
  const {head} = isTrace(item) ? item : report.traces[item.trace];
  return head.names ?? NO_NAMES;
}

/** Returns the folder that all traces of a report are in, with a slash at its end, or an empty text. */
function folderOf({traces}) {
  const paths = traces.map(({head}) => head.trace.split("/"));
  let shared = (paths[0] ?? []).slice(0, -1);
  for (const path of paths) {
    const end = shared.findIndex((it, at) => at >= path.length - 1 || path[at] !== it);
    if (end >= 0) shared = shared.slice(0, end);
  }
  return shared.map((it) => `${it}/`).join("");
}

/** Returns the first dialogue that fails, or null if none does. */
function firstFailing({dialogues}) {
  return dialogues.find(({head}) => head.verdict === "fail") ?? null;
}

/** Returns the counts at the end of the report, or else those of the traces that have arrived. */
function sumsOf(report) {
  if (report.total !== null) return report.total.total;
  const sums = {traces: noCounts(), dialogues: noCounts(), messages: 0, unheard: 0};
  for (const {head} of report.traces.filter((it) => it.head.verdict !== null)) {
    sums.traces[head.verdict] += 1;
    sums.messages += head.messages;
    sums.unheard += head.unheard;
    for (const verdict of VERDICTS) sums.dialogues[verdict] += head.dialogues[verdict];
  }
  return sums;
}
