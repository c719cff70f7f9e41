// Links: the dialogue or trace that a fragment of the address leads to, and the fragment that leads to each.

/** Returns the trace and the number that a fragment names, with null for each that it does not name. */
function namesIn(fragment) {
  const asked = new URLSearchParams(fragment.slice(1));
  return [asked.get("trace"), asked.get("dialogue")];
}

/** Returns the dialogue that a fragment leads to, by its number in the page, or by its trace and its number there. */
function dialogueAt(fragment, report) {
  if (/^#\d+$/.test(fragment)) return report.dialogues[Number(fragment.slice(1))];
  const [trace, number] = namesIn(fragment);
  return report.dialogues.find(({head}) => head.trace === trace && String(head.dialogue) === number);
}

/** Returns the trace that a fragment leads to, by its number in the page or by its name. */
function traceAt(fragment, report) {
  if (/^#t\d+$/.test(fragment)) return report.traces[Number(fragment.slice(2))];
  const [trace] = namesIn(fragment);
  return report.traces.find(({head}) => head.trace === trace);
}

/** Returns the fragment that leads to a dialogue. */
function fragmentOf(dialogue, report) {
  const {trace, dialogue: number} = dialogue.head;
  const fragment = `#${new URLSearchParams({trace, dialogue: number})}`;
  const isLong = trace.length > LONG_TITLE;
  return !isLong && dialogueAt(fragment, report) === dialogue ? fragment : `#${dialogue.number}`;
}

/** Returns the fragment that leads to a trace. */
function fragmentOfTrace(trace, report) {
  const fragment = `#${new URLSearchParams({trace: trace.head.trace})}`;
  const isLong = trace.head.trace.length > LONG_TITLE;
  return !isLong && traceAt(fragment, report) === trace ? fragment : `#t${trace.number}`;
}

/** Returns why the page has no dialogue with this number of a trace. */
function missingIn({head}, number, report) {
  const name = `Dialogue ${cut(seen(number), LONG_NAME)} of this trace`;
  if (head.verdict === null) return `${name} is not in this page, which ends before this trace does.`;
  const count = VERDICTS.reduce((sum, it) => sum + head.dialogues[it], 0);
  if (!/^\d+$/.test(number) || Number(number) >= count) {
    return `${name} was not judged: ${counted(count, "dialogue")} of it ${count === 1 ? "was" : "were"}.`;
  }
  const shown = report.dialogues.length.toLocaleString("en");
  const left = (report.total?.left_out ?? 0) > 0 ? `, and of the others the first ${shown} are here` : "";
  return `${name} is not in this page: those that pass are only counted${left}.`;
}

/** Returns the text for a fragment whose target is not in the page, or an empty text if it names no target. */
function missingAt(fragment) {
  const [trace] = namesIn(fragment);
  if (/^#t?\d+$/.test(fragment)) return `No ${fragment.startsWith("#t") ? "trace" : "dialogue"} of this page has the number in this link.`;
  return trace === null ? "" : `The trace ${cut(seen(trace), LONG_NAME)} is not in this page.`;
}
