// The rows of the lists.

// The number of IDs of an end in a row.
const SOME_IDS = 4;

/** Returns the fault of an end for the row of a dialogue: its place, and the sentence on it, or else the words of its
 * kind. */
function faultInRow(end, said, isAlone) {
  const place = [isAlone ? "" : end, placeOfFault(said)].filter((it) => it !== "").join(" ");
  const kind = wordsOfKind(said.kind), words = cut(seen(sentenceOf(said)), LONG_TITLE) || kind;
  return make("span", {title: words === kind ? kind : `${kind} ${words}`}, place === "" ? words : `${place}: ${words}`);
}

/** Returns in one line why a dialogue without an end at fault was not judged or not decided. */
function undecidedInRow(head) {
  const text = [head.text, ...ENDS.map((end) => head[end]?.text)].find((it) => it !== undefined) ?? "";
  return make("span", {class: "lower"}, make("span", {}, cut(seen(text.trim().split("\n")[0]), LONG_TITLE)));
}

/** Returns the row of a dialogue. The name of its trace begins with `folder`, which is left out. */
function dialogueRow({head, blamed}, folder) {
  const ids = ENDS.map((end) => `${end} ${head.ids[end].slice(0, SOME_IDS).join(" ") || "-"}`).join("  ");
  const kinds = blamed.map((end) => make("b", {title: wordsOfKind(head[end].kind)}, `${end} ${head[end].kind}`));
  const faults = blamed.map((end) => faultInRow(end, head[end], blamed.length === 1));
  const number = make("span", {}, `dialogue ${head.dialogue}`);
  return [
    make("span", {class: "upper"}, badge(head.verdict), ...kinds, named(head.trace, LONG_NAME, folder), number),
    faults.length > 0 ? make("span", {class: "lower faults"}, ...faults) : undecidedInRow(head),
    make("span", {class: "lower"}, make("code", {}, ids), head.table === undefined ? null : named(head.table)),
  ];
}

/** Returns how many dialogues of a trace have each verdict, and how many pass unheard or unanswered. */
function countsIn({dialogues, unheard}) {
  const counts = VERDICTS.filter((it) => dialogues[it] > 0).map((it) => `${dialogues[it].toLocaleString("en")} ${it}`);
  return unheard > 0 ? [...counts, `${unheard.toLocaleString("en")} pass ${UNHEARD}`] : counts;
}

/** Returns the row of a trace. Its name begins with `folder`, which is left out. */
function traceRow({head}, folder) {
  const {trace, verdict, text} = head;
  const counts = verdict === null ? ["not judged to its end"] : countsIn(head);
  return [
    make("span", {class: "upper"}, verdict === null ? null : badge(verdict), named(trace, LONG_NAME, folder)),
    make("span", {class: "lower"}, counts.length > 0 ? make("span", {}, counts.join(", ")) : null, text === undefined ? null : named(text)),
  ];
}

/** Returns the row of a dialogue, or of a trace among the dialogues. */
function rowOf(item, folder) {
  return isTrace(item) ? traceRow(item, folder) : dialogueRow(item, folder);
}
