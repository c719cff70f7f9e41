// Views of one dialogue and of one trace.

const OCTETS_IN_ROW = 16;
const KEPT = "\n";

/** Returns a dump of octets, 16 in a row: their offset, their digits and their ASCII characters. */
function dumpOf(digits) {
  const octets = digits.match(/../g) ?? [];
  const rows = [];
  for (let at = 0; at < octets.length; at += OCTETS_IN_ROW) {
    const row = octets.slice(at, at + OCTETS_IN_ROW);
    const letters = row.map((it) => parseInt(it, 16)).map((it) => (it > 31 && it < 127 ? String.fromCharCode(it) : "."));
    const halves = [row.slice(0, 8).join(" "), row.slice(8).join(" ")].join("  ");
    rows.push(`${at.toString(16).padStart(4, "0")}  ${halves.padEnd(3 * OCTETS_IN_ROW)}  ${letters.join("")}`);
  }
  return rows.join("\n");
}

/** Returns what a click on a message opens: the text of `show`, and the octets if the report has them. */
function detailOf(message) {
  const {show, octets, comment} = message;
  const dump = octets === undefined ? [] : [
    make("p", {class: "small"}, counted(octets.length / 2, "octet")),
    make("pre", {class: "dump", tabindex: "0", "aria-label": "Octets"}, dumpOf(octets)),
  ];
  return [make("pre", {class: "show"}, seen(show.trimEnd(), KEPT)), ...dump, opening("The whole comment", comment ?? "")];
}

/** Returns the transaction IDs of a message as a text. */
function idsIn({otid, dtid}) {
  return [otid === undefined ? "" : `otid ${otid}`, dtid === undefined ? "" : `dtid ${dtid}`].join(" ").trim();
}

/** Returns the rest of a message's line in `show` after its IDs: a cause and the dialogue portion. */
function portionIn(show) {
  return /^\d+ [AB] \w+(?: [od]tid=\w*)*(.*)/.exec(show)?.[1].trim() ?? "";
}

/** Returns the line number of an entry, if its trace has lines, and the comment above the line. */
function placeOf(message) {
  return [message.line > 0 ? `line ${message.line}` : "", message.comment ?? ""].filter((it) => it !== "").join(": ");
}

/** Returns the step of an entry. `operations` has the names of the dialogue's operations by their codes. */
function stepOf(message, operations) {
  const {entry} = message;
  const step = {number: entry, label: String(entry), entry, from: message.end ?? null, ids: idsIn(message), more: "", tags: [],
    parts: partsIn(message, operations), place: placeOf(message), arrow: WHOLE, detail: () => detailOf(message)};
  if (message.mark === true) return {...step, title: "Quiet mark"};
  if (message.kind === undefined) return {...step, title: "No message", more: seen(message.fault)};
  return {...step, title: message.kind, more: portionIn(message.show)};
}

/** Returns a join for each end at fault, which ties the entry at fault to the entries that show the fault. */
function joinsOf({head, blamed}) {
  return blamed.map((end) => {
    const {entry, kind, evidence, doubt} = head[end];
    const by = new Set((evidence?.shows ?? []).flatMap((it) => it.entries));
    by.delete(entry);
    return {end, at: entry, by, kind, part: evidence?.component ?? null, isDoubtful: doubt !== undefined};
  });
}

/** Returns a button that leads to an entry in the ladder. */
function leap(entry) {
  return make("button", {type: "button", class: "leap", "data-to": entry}, String(entry));
}

/** Returns a line of a reason. If the line is a fact of the evidence, its entries are buttons, each with its count. */
function reasonLine(line, shows) {
  const found = shows.find((it) => it.entries.length > 0 && line.trimStart().startsWith(`${it.what}:`));
  if (found === undefined) return make("div", {class: "line"}, seen(line));
  const counts = [...tally(found.entries)], first = counts.slice(0, 100), others = counts.length - first.length;
  const entries = first.flatMap(([entry, count]) => [" ", leap(entry), often(count)]);
  const behind = others > 0 ? ` and ${counted(others, "other")}` : "";
  const margin = line.slice(0, line.search(/\S|$/));
  return make("div", {class: "line"}, `${margin}${seen(found.what)}:`, ...entries, behind);
}

/** Returns the text of a reason, without the blanks that begin all its lines. */
function reasonOf(text, evidence) {
  const lines = text.trimEnd().split("\n");
  const margin = lines.map((it) => it.search(/\S|$/)).reduce((one, other) => Math.min(one, other));
  return make("div", {class: "reason"}, ...lines.map((it) => reasonLine(it.slice(margin), evidence?.shows ?? [])));
}

/** Returns the sentence that identifies the fault within its kind, or null if there is none. */
function sentenceView(said) {
  const sentence = sentenceOf(said);
  return sentence === "" ? null : make("span", {class: "sentence"}, cut(seen(sentence), LONG_TITLE));
}

/** Returns the verdict on an end in one line. `before` is the entry at fault of the other end, if it has one. */
function summaryOf(end, said, before) {
  if (said.kind !== undefined) {
    const place = placeOfFault(said), later = before < said.entry ? " It comes later and may follow from the first." : "";
    const words = `${place === "" ? "" : `, ${place}`}, ${said.kind}. ${wordsOfKind(said.kind)}${later}`;
    return make("p", {class: "summary"}, badge(said.verdict), ` ${end}: at entry `, leap(said.entry), words,
      sentenceView(said));
  }
  const words = said.verdict === "pass"
    ? `sent ${counted(said.sent, "message")}, with ${counted(said.unheard, "message")} of its peer taken as unheard.`
    : cut(seen(said.text.split("\n")[0]), LONG_TITLE);
  return make("p", {class: "summary"}, badge(said.verdict), ` ${end}: ${words}`);
}

/** Returns whether there is more to show for an end than its summary. */
function hasReason(said) {
  return said?.kind !== undefined || (said?.text ?? "").trimEnd().includes("\n");
}

/** Returns the full reasons for the verdicts on the ends and on the dialogue. */
function reasonsOf(head, ends) {
  const boxes = ends.filter((end) => hasReason(head[end])).map((end) => {
    const {text, evidence, doubt} = head[end];
    const doubted = doubt === undefined ? null : make("p", {class: "doubt"}, `Inconclusive: ${seen(doubt)}.`);
    return make("div", {}, make("h3", {}, `Why, of ${end}`), doubted, reasonOf(text, evidence));
  });
  if (head.text !== undefined) {
    const heading = head.verdict === "error" ? "Why" : "What it waits for";
    boxes.push(make("div", {}, make("h3", {}, heading), reasonOf(head.text, null)));
  }
  return make("div", {class: "reasons"}, ...boxes);
}

/** Returns a fact with its name. */
function fact(name, ...words) {
  return make("div", {}, make("dt", {}, name), make("dd", {}, ...words));
}

/** Returns the IDs of an end as a fact. */
function idsFact(end, ids) {
  const words = ids.join(" ");
  return fact(`IDs of ${end}`, make("code", {}, cut(words, LONG_NAME) || "none"), opening("All of them", words) ?? "");
}

/** Returns the facts of a dialogue. */
function factsOf(head) {
  const {entries, lines, ids, table, context} = head;
  const open = head.marked ? "open at the quiet mark after it" : "open at the end of its trace";
  const told = [["open", open], ["marked", "ended by a quiet mark"],
    ["again", "with an ID of an earlier dialogue"]].filter(([flag]) => head[flag]).map(([, words]) => words);
  const [word, span] = lines[0] > 0 ? ["lines", lines] : ["entries", entries];
  const words = `${entries.length.toLocaleString("en")}: ${word} ${span[0]} to ${span.at(-1)} of the trace`;
  return make("dl", {class: "facts"},
    ...ENDS.map((end) => idsFact(end, ids[end])),
    table === undefined ? null : fact("Table", named(table)),
    context === undefined ? null : fact("Context", make("code", {}, context)),
    fact("Entries", words), told.length > 0 ? fact("State", told.join("; ")) : null);
}

/** Returns what is above the lifeline of an end: its letter, its name if it has one, and its IDs. */
function lifelineHead(end, name, ids) {
  return [`${end} `, name === undefined ? null : named(name), ` ${cut(ids.join(" "), LONG_NAME)}`];
}

/** Returns the ladder of a dialogue, with a note if entries are not listed. `names` has the names of its ends. */
function ladderOf(dialogue, names) {
  const found = messagesOf(dialogue);
  if (found === null) return make("p", {class: "note"}, "The messages of this dialogue can't be read: its line is cut.");
  const joins = joinsOf(dialogue), {ids} = dialogue.head;
  const heads = ENDS.map((end) => lifelineHead(end, names[end], ids[end]));
  const operations = operationsIn(found.messages, reasonsIn(dialogue.head));
  const steps = withOperations(found.messages).map((it) => stepOf(it, operations));
  const count = dialogue.head.entries.length;
  const [left, all] = [found.leftOut, count].map((it) => it.toLocaleString("en"));
  const note = found.leftOut > 0 ? make("p", {class: "note"}, `${left} of the ${all} entries are not listed.`) : null;
  return make("div", {}, note, ladder("The entries of the dialogue", heads, steps, joins, count));
}

/** Returns a line for each end that has a name. A long name can be opened. */
function endNamesView(names) {
  return ENDS.filter((end) => names[end] !== undefined).flatMap((end) => [
    make("p", {class: "end"}, make("b", {}, end), " is ", named(names[end])),
    opening(`The whole name of ${end}`, names[end]),
  ]);
}

/** Returns a heading with the name of a trace, which can be opened if it is long, and the names of its ends. */
function headingOf(trace, words, verdict, names) {
  const heading = make("h2", {tabindex: "-1"}, named(trace), words, verdict === null ? null : badge(verdict));
  return make("div", {class: "heading"}, heading, opening("The whole name", trace), ...endNamesView(names));
}

/** Returns the view of a dialogue, whose ends have these names. The end at fault comes first; if both are, the one with
 * the earlier entry at fault. */
function dialogueView(dialogue, names) {
  const {head, blamed} = dialogue;
  const ends = [...blamed, ...ENDS.filter((end) => head[end] !== undefined && !blamed.includes(end))];
  const made = make("article", {class: "dialogue", "aria-label": `Dialogue ${head.dialogue}`},
    headingOf(head.trace, ` dialogue ${head.dialogue} `, head.verdict, names), factsOf(head),
    ...ends.map((end) => summaryOf(end, head[end], head[otherEnd(end)]?.entry)),
    make("div", {class: "beside"}, ladderOf(dialogue, names), reasonsOf(head, ends)));
  const there = new Set([...made.querySelectorAll(".step[data-entry]")].map((it) => it.dataset.entry));
  for (const it of made.querySelectorAll(".leap")) it.disabled = !there.has(it.dataset.to);
  return made;
}

/** Returns the counts of a trace. */
function traceSums(head) {
  if (head.verdict === null) {
    return make("p", {class: "note"}, "The run was stopped before this trace was judged to its end.");
  }
  return make("dl", {class: "facts"}, fact("Messages", head.messages.toLocaleString("en")),
    ...VERDICTS.map((it) => fact(`Dialogues: ${it}`, head.dialogues[it].toLocaleString("en"))),
    fact("Pass unheard or unanswered", head.unheard.toLocaleString("en")));
}

/** Returns what happened to the messages of a trace that is itself in error. */
function unjudgedWords({dialogues, messages}) {
  if (VERDICTS.some((it) => dialogues[it] > 0)) return "Dialogues that were open there may not be told.";
  if (messages === 0) return "";
  return messages === 1 ? "Its message was not judged." : `None of its ${messages.toLocaleString("en")} messages was judged.`;
}

/** Returns the view of a trace. `enter` lists its dialogues, and `note` is a further note on it. */
function traceView(trace, count, enter, note) {
  const {head} = trace, words = isInError(trace) ? unjudgedWords(head) : "";
  const notes = [note, words].filter((it) => it !== "").map((it) => make("p", {class: "note"}, it));
  const hint = head.hint === undefined ? "" : `\nhint: ${head.hint}`;
  const text = head.text === undefined ? null : make("div", {class: "reason"}, seen(`${head.text}${hint}`, KEPT));
  const button = make("button", {type: "button"}, `List its dialogues that do not pass (${count.toLocaleString("en")})`);
  button.addEventListener("click", enter);
  return make("article", {class: "trace"},
    headingOf(head.trace, " ", head.verdict, head.names ?? NO_NAMES), ...notes, text, traceSums(head),
    count > 0 ? button : null);
}
