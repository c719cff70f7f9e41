// The filters and the search, which decide what is listed.

// The most traces in the filter of traces; others can be chosen in the list of traces.
const MOST_OPTIONS = 1000;

/** Returns how often each value occurs in a list. */
function tally(values) {
  const counts = new Map();
  for (const value of values) counts.set(value, (counts.get(value) ?? 0) + 1);
  return counts;
}

/** Fills a choice with `any` and an option for each value with its words and, if there is one, its title; null makes a
 * disabled option. Keeps the choice made. */
function fillChoice(choice, options) {
  const {value} = choice;
  const made = options.map(([it, words, title]) =>
    make("option", {value: it, disabled: it === null ? "" : null, title: title ?? null}, words));
  choice.replaceChildren(make("option", {value: ""}, "any"), ...made);
  choice.value = value;
}

/** Returns the options for kinds of fault, each with its count and its sentence. */
function kindOptions(dialogues) {
  const counts = tally(dialogues.flatMap(({head, blamed}) => [...new Set(blamed.map((end) => head[end].kind))]));
  const known = Object.keys(KINDS).filter((kind) => counts.has(kind));
  return known.map((kind) => [kind, `${kind} (${counts.get(kind)}): ${KINDS[kind][0]}`]);
}

/** Returns the options for tables. A sign comes before the name in each value, since a name may be empty. */
function tableOptions(dialogues) {
  const counts = [...tally(dialogues.map(({head}) => head.table))];
  const options = counts.map(([name, count]) =>
    name === undefined ? ["-", `without a name (${count})`] : [`=${name}`, `${cut(seen(name), LONG_NAME)} (${count})`]);
  return options.sort((one, other) => (one[1] < other[1] ? -1 : 1));
}

/** Returns the options for the first traces with dialogues in the report, and an option that counts the others. The
 * names of the traces begin with `folder`. */
function traceOptions(report, folder) {
  const counts = [...tally(report.dialogues.map((it) => it.trace))], others = counts.length - MOST_OPTIONS;
  const options = counts.slice(0, MOST_OPTIONS).map(([number, count]) => {
    const [words, title] = shortened(report.traces[number].head.trace, LONG_NAME, folder);
    return [String(number), `${words} (${count})`, title];
  });
  return others > 0 ? [...options, [null, `${others.toLocaleString("en")} more in the list of traces`]] : options;
}

/** Chooses a trace, whose name begins with `folder`, and adds an option for it if there is none. */
function chooseTrace(form, {number, head}, folder) {
  const choice = form.elements.trace, value = String(number);
  if ([...choice.options].every((it) => it.value !== value)) {
    const [words, title] = shortened(head.trace, LONG_NAME, folder);
    choice.append(make("option", {value, title}, words));
  }
  choice.value = value;
}

/** Fills the filters with the values in the report. The names of its traces begin with `folder`. */
function fillFilters(form, report, folder) {
  const {dialogues} = report;
  const verdicts = tally([...report.traces.filter(isInError), ...dialogues].map(({head}) => head.verdict));
  const ends = tally(dialogues.flatMap((it) => it.blamed));
  const {verdict, end, kind, table, trace} = form.elements;
  const words = (it) => (it === "pass" ? "pass (traces alone)" : `${it} (${verdicts.get(it) ?? 0})`);
  fillChoice(verdict, VERDICTS.map((it) => [it, words(it)]));
  fillChoice(end, ENDS.map((it) => [it, `${it} (${ends.get(it) ?? 0})`]));
  fillChoice(kind, kindOptions(dialogues));
  fillChoice(table, tableOptions(dialogues));
  fillChoice(trace, traceOptions(report, folder));
}

/** Returns a term of the search. `part` is looked for in IDs, names and kinds; `line` is a line number, or null;
 * `told` tests the comments; `isWord` is whether reasons are searched too. In comments a number must not be part of a
 * longer one, since most of those are times. In reasons a number can mean anything, so they are not searched for
 * numbers. */
function termOf(part) {
  const [, name, digits] = /^(?:(line|frame)\s+)?([1-9]\d*)$/.exec(part) ?? [];
  if (digits === undefined) return {part, line: null, told: (comments) => comments.includes(part), isWord: !/^\d*$/.test(part)};
  const number = new RegExp(`(?<![\\w.:-])${name === "frame" ? "frames? (?:\\d+ to )?" : ""}${digits}(?![\\w:-]|\\.\\d)`);
  const told = (comments) => name !== "line" && number.test(comments);
  return {part, line: name === "frame" ? null : Number(digits), told, isWord: false};
}

/** Returns the values of the filters and the terms of the search. */
function askedOf(form) {
  const {verdict, end, kind, table, trace, words} = Object.fromEntries(new FormData(form));
  const terms = words.toLowerCase().match(/(?:line|frame)\s+\d+(?!\S)|\S+/g) ?? [];
  return {verdict, end, kind, table, trace, terms: terms.map(termOf)};
}

/** Returns whether an end at fault of a dialogue and its kind are among those that the filters ask for. */
function isBlamedSo({head, blamed}, {end, kind}) {
  if (end === "" && kind === "") return true;
  return blamed.some((it) => (end === "" || it === end) && (kind === "" || head[it].kind === kind));
}

/** Returns whether the searched texts have a term. */
function hasTerm({ids, lines, kinds, names, comments, reasons}, {part, line, told, isWord}) {
  return names.includes(part) || ids.some((id) => id.includes(part)) || lines.includes(line) || told(comments)
    || kinds.includes(part) || (isWord && reasons.includes(part));
}

/** Returns whether a dialogue has each term. */
function hasTerms(dialogue, terms) {
  return terms.length === 0 || terms.every((it) => hasTerm(wordsOf(dialogue), it));
}

/** Returns whether a dialogue is listed. */
function isListed(dialogue, asked) {
  const {head, trace} = dialogue;
  return (asked.verdict === "" || head.verdict === asked.verdict) && (asked.trace === "" || String(trace) === asked.trace)
    && (asked.table === "" || asked.table === (head.table === undefined ? "-" : `=${head.table}`))
    && isBlamedSo(dialogue, asked) && hasTerms(dialogue, asked.terms);
}

/** Returns whether a trace is listed for itself: the filters must not ask for anything that only a dialogue has. */
function isTraceListed({head, number}, asked) {
  const reasons = [head.text ?? "", head.hint ?? "", head.unheard > 0 ? UNHEARD : ""].join("\n").toLowerCase();
  const words = {ids: [], lines: [head.line], kinds: [], names: head.trace.toLowerCase(), comments: "", reasons};
  return asked.end + asked.kind + asked.table === "" && (asked.trace === "" || String(number) === asked.trace)
    && (asked.verdict === "" || head.verdict === asked.verdict) && asked.terms.every((it) => hasTerm(words, it));
}

/** Returns the listed `dialogues`; `inError`, the traces that are themselves in error, which are listed before them;
 * `rows`, both of these; and `traces`, the list of traces, which are listed for themselves or for their dialogues. */
function listed(report, asked) {
  const dialogues = report.dialogues.filter((it) => isListed(it, asked));
  const having = new Set(dialogues.map((it) => it.trace)), alone = report.traces.filter((it) => isTraceListed(it, asked));
  const inError = alone.filter(isInError), of = new Set(alone.map((it) => it.number));
  const traces = report.traces.filter(({number}) => of.has(number) || having.has(number));
  return {dialogues, inError, rows: [...inError, ...dialogues], traces};
}
