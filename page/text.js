// Texts and elements. The content of a trace is data: it is set as text, and never as markup.

// The kinds of fault: the words for each, and the section of its rule. docs/VERDICTS.md says how to find each by
// hand.
const KINDS = {
  F1: ["Its octets are no message.", "Q.773, X.690"],
  F2: ["Its peer sent nothing from the destination ID that it could answer.", "Q.774 3.3"],
  F3: ["Its end has used the originating ID before.", "Q.774 3.3; that an ID is used once is this profile's choice"],
  F4: ["Its end has ended this dialogue before.", "Q.774 3.3"],
  F5: ["It answers or rejects what its peer never sent.", "Q.774 3.2"],
  F6: ["It invokes or answers an operation as the table does not allow.", "Q.771 3.1, operation classes"],
  F7: ["Its dialogue portion is one that it may not carry.", "Q.774 3.2, dialogues; Q.773 4.2.3"],
  F8: ["Its end has no transaction over which it may send it.", "Q.774 3.3"],
  F9: ["Its dialogue portion does not fit how the dialogue stands.", "Q.774 3.2, dialogues"],
  F10: ["It invokes an ID that is in use.", "Q.774 3.2, invocations; Q.771, classes"],
  F11: ["It is linked to an invocation that its end did not receive, has answered, or may not link it to.",
    "Q.774 3.2; Q.771, linked operations"],
  F12: ["It answers an invocation that was answered already.", "Q.774 3.2; Q.771, classes"],
  F13: ["It rejects with a problem that nothing received has.", "Q.774 3.2; Q.773 4.2.2"],
  F14: ["It is an Abort of the provider that answers nothing which is left.", "Q.774 3.3, abnormal procedures"],
  F15: ["It is a quiet mark, and a transaction of the end is surely open there.", "the bench's word that all was quiet"],
};
const ENDS = ["A", "B"];
const VERDICTS = ["error", "fail", "inconc", "pass"];
const SVG = "http://www.w3.org/2000/svg";

// Control characters, direction marks, and other characters that are invisible or change their neighbours.
const UNSEEN = /[\p{Cc}\p{Cf}\p{Zl}\p{Zp}]/gu;
const LONG_NAME = 80;
const LONG_TITLE = 1000;

/** Returns a text with each invisible character replaced by its number, except the characters in `kept`. */
function seen(text, kept = "") {
  return text.replace(UNSEEN, (it) => (kept.includes(it) ? it : `\\u{${it.codePointAt(0).toString(16)}}`));
}

/** Returns a text, cut if it is too long. */
function cut(text, longest) {
  return text.length > longest ? `${text.slice(0, longest)}\u2026` : text;
}

/** Returns a count with its word, in the plural unless the count is 1. */
function counted(count, word) {
  return `${count.toLocaleString("en")} ${word}${count === 1 ? "" : "s"}`;
}

/** Returns the words of a kind of fault, with the section of its rule. */
function wordsOfKind(kind) {
  const [words, section] = KINDS[kind] ?? ["This page has no words for it.", kind];
  return `${words} (${section})`;
}

/** Returns the sentence that identifies the fault within its kind: the first line of its text. If that has only the
 * words of the kind, returns an empty text. */
function sentenceOf({kind, text}) {
  const [sentence] = text.trim().split("\n"), [words] = KINDS[kind] ?? [""];
  return words.toLowerCase().startsWith(sentence.toLowerCase()) ? "" : sentence;
}

/** Returns in words how often something occurs, if it is more than once. */
function often(count) {
  if (count < 2) return "";
  return count === 2 ? " (twice)" : ` (${count.toLocaleString("en")} times)`;
}

/** Returns the line of an entry at fault, and the frame or frames that its comment names first, if there are any. */
function placeOfFault({line, comment}) {
  const frames = /\bframes? \d{1,15}\b(?: to \d{1,15}\b)?/i.exec(comment ?? "");
  return [line > 0 ? `line ${line}` : "", frames?.[0] ?? ""].filter((it) => it !== "").join(", ");
}

/** Sets the attributes that are not null, and appends the children. */
function filled(made, attributes, children) {
  for (const [name, value] of Object.entries(attributes)) {
    if (value !== null) made.setAttribute(name, value);
  }
  made.append(...children.filter((it) => it !== null));
  return made;
}

/** Creates an HTML element. A child that is a string becomes text. */
function make(tag, attributes, ...children) {
  return filled(document.createElement(tag), attributes, children);
}

/** Creates an SVG element. */
function drawn(tag, attributes, ...children) {
  return filled(document.createElementNS(SVG, tag), attributes, children);
}

/** Returns a name from a trace without the folder that it begins with, cut if it is long; and a title with more of the
 * name, or null if nothing is left out. */
function shortened(text, longest, folder) {
  const all = seen(text), isWhole = folder === "" && all.length <= longest;
  return [cut(seen(text.slice(folder.length)), longest), isWhole ? null : cut(all, LONG_TITLE)];
}

/** Returns an element with a name from a trace, without the folder that it begins with; its title has more of it. */
function named(text, longest = LONG_NAME, folder = "") {
  const [words, title] = shortened(text, longest, folder);
  return make("bdi", {class: "name", title}, words);
}

/** Returns an element that opens to show a text from a trace, or null if the text is short. */
function opening(words, text) {
  const all = seen(text);
  if (all.length <= LONG_NAME) return null;
  return make("details", {class: "long"}, make("summary", {}, words), make("bdi", {class: "name"}, all));
}

/** Returns a verdict as a word in a frame. */
function badge(verdict) {
  return make("span", {class: `badge ${verdict}`}, verdict);
}
