// The ladder: two lifelines, with a step for each message, from the top down.
//
// A step has these fields: `number`, its place in the ladder; `label`, the number that is shown; `entry`, the entry
// that buttons lead to, or null; `from`, the end that sends it, or null; `at`, if `from` is null, the end where it
// happens, if there is one; the texts `title`, `ids`, `more` and `place`; `parts`, texts on separate lines; `tags`,
// elements after its title; `isMarked`, its mark, if it has one: `fault` or `doubtful`; `arrow`; `way`, the words for
// the arrow, if they are not the usual ones; and `detail`, a function that makes what a click opens.
//
// A join is a line next to the ladder: `end` is the side where it is drawn, `by` the set of numbers that it ties, and
// `spans` the first and the last number of each of its pieces. A join for a fault ties the step at fault, which is
// open from the start, to the steps that show the fault. It has `kind`; `isDoubtful`; `at`, the number of the step at
// fault; and `part`, the index of its part at fault, or null. It spans everything that it ties.

// The most parts of a step that are drawn.
const MOST_PARTS = 12;
// An arrow from left to right: where it begins and ends, in percent of the width, and its tip, which may be a cross.
const WHOLE = {from: 0, to: 100, tip: "head"};
const TIPS = {head: "M0 6 L-11 1.5 V10.5 Z", cross: "M-5 1 L5 11 M-5 11 L5 1"};

/** Returns an arrow; frame.css turns the arrows of B. */
function arrowView({from, to, tip, isDotted}) {
  const end = drawn("svg", {x: `${to}%`, y: "0", overflow: "visible"}, drawn("path", {class: tip, d: TIPS[tip]}));
  return drawn("svg", {class: isDotted ? "arrow dotted" : "arrow", height: "12", "aria-hidden": "true"},
    drawn("line", {x1: `${from}%`, y1: "6", x2: `${to}%`, y2: "6"}), end);
}

/** Returns the role of a step in a join: at fault, shown as evidence, passed by its line, or none. */
function partIn(join, number) {
  if (!join.spans.some(([first, last]) => first <= number && number <= last)) return "";
  if (number === join.at) return "fault";
  return join.by.has(number) ? "shows" : "passed";
}

/** Returns a piece of a join's line next to a step. */
function lane(join, number, side) {
  const classes = ["lane", side];
  const part = join === undefined ? "" : partIn(join, number);
  if (part !== "") {
    classes.push(part);
    if (!join.spans.some(([first, last]) => first < number && number <= last)) classes.push("begins");
    if (!join.spans.some(([first, last]) => first <= number && number < last)) classes.push("ends");
    if (join.kind === undefined) classes.push("late");
    if (join.isDoubtful === true) classes.push("doubtful");
  }
  return make("span", {class: classes.join(" "), "aria-hidden": "true"});
}

/** Returns whether all joins that have a step at fault are in doubt. */
function isInDoubt(joins, number) {
  const found = joins.filter((it) => it.at === number);
  return found.length > 0 && found.every((it) => it.isDoubtful === true);
}

/** Returns the mark of what a join has at fault, between two texts. If the join is inconclusive, the mark says "in
 * doubt". */
function faultMark(join, before, behind) {
  const [kind, words] = join.isDoubtful ? ["doubtful", "in doubt"] : ["fault", "at fault"];
  return make("strong", {class: `mark ${kind}`}, `${before}${words}${behind}`);
}

/** Returns the marks that the joins give to a step. */
function marks(joins, number) {
  const found = [];
  for (const join of joins.filter((it) => it.kind !== undefined)) {
    if (join.at === number) found.push(faultMark(join, `${join.end} `, `: ${join.kind}`));
    if (join.by.has(number)) found.push(make("span", {class: "mark shows"}, `shows ${join.kind} of ${join.end}`));
  }
  return found;
}

/** Returns a part of a step. `join` is the join that has it at fault, if there is one. */
function partView(part, join) {
  const words = cut(seen(part), 2 * LONG_NAME);
  if (join === undefined) return make("span", {class: "part"}, words);
  return make("span", {class: "part"}, make("u", {}, words), " ", faultMark(join, "", ""));
}

/** Returns the first parts of a step and the one at fault, and the count of the others. */
function partsOf({parts, number}, joins) {
  const views = parts.flatMap((it, at) => {
    const join = joins.find((one) => one.at === number && one.part === at);
    return at < MOST_PARTS || join !== undefined ? [partView(it, join)] : [];
  });
  const others = parts.length - views.length;
  return others > 0 ? [...views, make("span", {class: "part"}, `and ${counted(others, "other")}`)] : views;
}

/** Returns the lines of a step: its number with its title and marks, and its parts. */
function sayings(step, joins) {
  const number = make("span", {class: "number"}, step.label);
  const first = make("span", {class: "first"}, number, make("b", {}, step.title), make("code", {}, step.ids),
    make("span", {class: "more"}, step.more), ...marks(joins, step.number), ...step.tags);
  return [first, ...partsOf(step, joins)];
}

/** Returns the place of a step in its trace. */
function placed(step) {
  return make("span", {class: "place"}, named(step.place, 2 * LONG_NAME));
}

/** Opens or closes the detail of a step. */
function toggle(button, step) {
  const opens = button.getAttribute("aria-expanded") !== "true";
  button.setAttribute("aria-expanded", String(opens));
  if (opens) button.after(make("div", {class: "detail"}, ...step.detail()));
  else button.nextElementSibling.remove();
}

/** Returns a step between the lifelines: a message with its arrow, or a text for a step that no end sends. */
function between(step, joins) {
  const inner = sayings(step, joins);
  if (step.from === null) {
    return make("div", {class: `between still at-${step.at ?? "none"}`, tabindex: "-1"}, ...inner, placed(step));
  }
  const way = make("span", {class: "unseen"}, step.way ?? (step.from === "A" ? " from A to B " : " from B to A "));
  const button = make("button", {type: "button", class: "message", "aria-expanded": "false"}, ...inner, way,
    arrowView(step.arrow), placed(step));
  button.addEventListener("click", () => toggle(button, step));
  const made = make("div", {class: `between from-${step.from}`}, button);
  if (joins.some((it) => it.at === step.number)) toggle(button, step);
  return made;
}

/** Returns a row, with a piece of a join's line on each side. */
function row(attributes, number, joins, inner) {
  const [left, right] = ["A", "B"].map((end) => joins.find((it) => it.end === end));
  return make("li", attributes, lane(left, number, "left"), inner, lane(right, number, "right"));
}

/** Returns the row of a step. */
function rung(step, joins) {
  const isFault = step.isMarked !== undefined || joins.some((it) => it.at === step.number);
  const isDoubtful = isInDoubt(joins, step.number) || step.isMarked === "doubtful";
  const classes = ["step", isFault ? "fault" : "", isDoubtful ? "doubtful" : ""].filter((it) => it !== "").join(" ");
  return row({class: classes, "data-entry": step.entry}, step.number, joins, between(step, joins));
}

/** Returns a row for entries that are not listed. */
function gap(from, to, joins) {
  const which = to === from ? `Entry ${from} is` : `Entries ${from} to ${to} are`;
  return row({class: "step gap"}, to, joins, make("div", {class: "between still"}, `${which} not listed.`));
}

/** Returns a join with the numbers that its line spans: those given, or else from the first listed step that it ties
 * to the last. */
function spanned(join, steps) {
  if (join.spans !== undefined) return join;
  const tied = steps.map((it) => it.number).filter((it) => it === join.at || join.by.has(it));
  return {...join, spans: tied.length > 0 ? [[tied[0], tied.at(-1)]] : []};
}

/** Returns the ladder with this name. `count` is the number of all steps, and `heads` has what is above each
 * lifeline. */
function ladder(name, heads, steps, given, count) {
  const joins = given.map((it) => spanned(it, steps));
  const rows = [];
  let next = 0;
  for (const step of steps) {
    if (step.number > next) rows.push(gap(next, step.number - 1, joins));
    rows.push(rung(step, joins));
    next = step.number + 1;
  }
  if (next < count) rows.push(gap(next, count - 1, joins));
  const top = make("div", {class: "heads", "aria-hidden": "true"}, ...heads.map((it) => make("span", {}, ...it)));
  return make("div", {class: "ladder"}, top, make("ol", {"aria-label": name}, ...rows));
}
