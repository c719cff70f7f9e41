// The components of a message, in few words: from the report, and for the rest from their lines in `show`.

// The components of which one answers the other: an Invoke has an invoke ID and its operation, an answer only the ID.
const INVOKE = /^Invoke (-?\d+) (.*)$/s;
const ANSWER = /^(?:ReturnResultLast|ReturnResultNotLast|ReturnError) (-?\d+)$/;
// The line of a reason that gives the operation which a Return Result names.
const NAMED = /^ *the result names (.*)$/m;
// The fields after the invoke ID in the line of a component.
const FIELD = / (linked|op|error|general|invoke|result)=(?:g:)?(\S*)/g;
// The problems of a Reject in the order of their numbers (Q.773 4.2.2), by the field that has the number.
const PROBLEMS = {
  general: ["general problem", ["unrecognizedComponent", "mistypedComponent", "badlyStructuredComponent"]],
  invoke: ["invoke problem", ["duplicateInvokeID", "unrecognizedOperation", "mistypedParameter", "resourceLimitation",
    "initiatingRelease", "unrecognizedLinkedID", "linkedResponseUnexpected", "unexpectedLinkedOperation"]],
  result: ["return result problem", ["unrecognizedInvokeID", "returnResultUnexpected", "mistypedParameter"]],
  error: ["return error problem", ["unrecognizedInvokeID", "returnErrorUnexpected", "unrecognizedError", "unexpectedError",
    "mistypedParameter"]],
};

/** Returns the fields of the components of a message, from the lines of `show` after the first. */
function fieldsOf(show) {
  return show.split("\n").slice(1).map((line) => {
    const [head] = line.split(" parameter=");
    return Object.fromEntries([...head.matchAll(FIELD)].map(([, name, value]) => [name, value]));
  });
}

/** Returns the code of an operation, which comes after its name if it has one. */
function codeOf(operation) {
  return operation.split(" ").at(-1);
}

/** Returns operations with their names, by their codes: those that messages invoke, and those that results name, as
 * reasons report. */
function operationsIn(messages, reasons = []) {
  const invoked = messages.flatMap((it) => it.components ?? []).map((it) => INVOKE.exec(it)?.[2]);
  const named = reasons.map((it) => NAMED.exec(it)?.[1]);
  return new Map([...invoked, ...named].filter((it) => it !== undefined).map((it) => [codeOf(it), it]));
}

/** Returns the problem of a Reject in words. */
function problemIn(fields) {
  const [name] = Object.keys(PROBLEMS).filter((it) => it in fields);
  if (name === undefined) return "";
  const [words, problems] = PROBLEMS[name], problem = problems[Number(fields[name])];
  return ` with ${words} ${fields[name]}${problem === undefined ? "" : `, ${problem}`}`;
}

/** Returns the operation that a Return Result names, in words, if it is not the operation that the result answers. */
function namedIn({op}, answered, operations) {
  if (op === undefined || (answered !== null && codeOf(answered) === op)) return "";
  return `${answered === null ? "" : ", but"} names ${operations.get(op) ?? op}`;
}

/** Returns a component in words. `fields` are those of its line, and `answered` is the operation that it answers, or
 * null. */
function partWords(part, fields, answered, operations) {
  const [kind] = part.split(" "), answers = answered === null ? "" : ` answers ${answered}`;
  if (kind === "Invoke") return fields.linked === undefined ? part : `${part} linked to ${fields.linked}`;
  if (kind === "Reject") return part + problemIn(fields);
  if (kind === "ReturnError") return part + answers + (fields.error === undefined ? "" : ` with error ${fields.error}`);
  return part + answers + namedIn(fields, answered, operations);
}

/** Returns the components of a message in words. */
function partsIn({components, answered, show}, operations) {
  const fields = fieldsOf(show ?? "");
  return (components ?? []).map((it, at) => partWords(it, fields[at] ?? {}, answered?.[at] ?? null, operations));
}

/** Returns the operation that a component answers, or null if that is uncertain. */
function answeredBy(part, {end, dtid}, invokes) {
  const found = invokes.get(`${otherEnd(end)} ${ANSWER.exec(part)?.[1]}`) ?? null;
  return found !== null && found.otid === dtid ? found.operation : null;
}

/** Adds to each message the operations that its components answer. An operation is certain if the other end sent
 * exactly one Invoke with its ID before, from the transaction ID that the answer goes to, and no earlier entry is
 * left out or unreadable. */
function withOperations(messages) {
  const invokes = new Map();
  let isSure = true;
  return messages.map((message, at) => {
    const {entry, end, otid, fault, components} = message;
    isSure &&= entry === at && fault === undefined;
    if (!isSure || components === undefined) return message;
    const answered = components.map((it) => answeredBy(it, message, invokes));
    for (const [, id, operation] of components.map((it) => INVOKE.exec(it)).filter((it) => it !== null)) {
      const key = `${end} ${id}`;
      invokes.set(key, invokes.has(key) ? null : {otid, operation});
    }
    return {...message, answered};
  });
}
