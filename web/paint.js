// The painted copy of a text that lies under its text area: comments and heads in colour, and whatever is marked.

const WORD = /;.*|[()]|[^\s();]+/g;
const PARENTHESIS = /;.*|[()]/g;

/** The heads of the language; any other head is a function's. */
const FORMS = new Set(("pipeline specification invariant start latch memory function predicate input let next flush "
  + "steps exact not and or implies iff = ite read write").split(" "));

/** The parts of a line that have a look of their own. No part goes past its line. */
export function looksOf(line) {
  const looks = [];
  let opened = false;
  for (const { 0: word, index: from } of line.matchAll(WORD)) {
    const to = from + word.length;
    if (word.startsWith(";")) looks.push({ from, to, look: "comment" });
    else if (opened && word !== "(" && word !== ")") looks.push({ from, to, look: FORMS.has(word) ? "head" : "call" });
    opened = word === "(";
  }
  return looks;
}

/** Where the parenthesis stands that belongs to the one at a place: -1 if there is none. */
export function partnerOf(text, place) {
  const open = [];
  for (const { 0: sign, index } of text.matchAll(PARENTHESIS)) {
    if (sign === "(") open.push(index);
    if (sign !== ")") continue;
    const start = open.pop() ?? -1;
    if (start === place) return index;
    if (index === place) return start;
  }
  return -1;
}

/** The parenthesis beside the cursor: the one before it, or else the one after it; -1 if there is none. */
export function parenthesisAt(text, cursor) {
  for (const place of [cursor - 1, cursor]) {
    if (text[place] !== "(" && text[place] !== ")") continue;
    const line = text.slice(text.lastIndexOf("\n", place) + 1, place);
    if (!line.includes(";")) return place;
  }
  return -1;
}

/** A line cut wherever a look begins or ends, each piece with its looks. */
function pieces(line, spans) {
  const cuts = [...new Set([0, line.length, ...spans.flatMap(({ from, to }) => [from, to])])].sort((a, b) => a - b);
  return cuts.slice(1).map((to, index) => ({
    text: line.slice(cuts[index], to),
    looks: spans.filter((span) => span.from <= cuts[index] && to <= span.to).map(({ look }) => look),
  }));
}

function element(name, className, text) {
  const made = document.createElement(name);
  made.className = className;
  made.textContent = text;
  return made;
}

/** The values beside a line, each behind its columns. */
function valuesBeside(told) {
  const made = element("span", "value", "");
  told.forEach(({ columns, values }, index) => {
    if (index > 0) made.append("; ");
    if (columns !== "") made.append(element("span", "columns", `${columns}: `));
    made.append(values);
  });
  return made;
}

/** A line as an element. A mark without an end is of the whole line. */
function drawn(line, marks) {
  const whole = marks.filter(({ to }) => to === undefined).map(({ look }) => look);
  const made = element("div", ["line", ...whole].join(" "), "");
  const spans = [...looksOf(line), ...marks.filter(({ to }) => to !== undefined)];
  made.append(...pieces(line, spans).map(({ text, looks }) => (looks.length ? element("span", looks.join(" "), text) : text)));
  const told = marks.find(({ values }) => values);
  if (told) made.append(valuesBeside(told.values));
  return made;
}

/** How many items two lists begin with alike. */
function alike(some, others) {
  const most = Math.min(some.length, others.length);
  let count = 0;
  while (count < most && some[count] === others[count]) count++;
  return count;
}

export class Paint {
  constructor(layer) {
    this.layer = layer;
    this.lines = [];
    this.marks = new Map();
  }

  /** Paints a text. Only the lines between what stays at the start and at the end are made anew; marks go. */
  write(text) {
    for (const kind of this.marks.keys()) this.mark(kind, []);
    const lines = text.split("\n");
    const start = alike(this.lines, lines);
    const end = alike(this.lines.slice(start).reverse(), lines.slice(start).reverse());
    const old = [...this.layer.children].slice(start, this.lines.length - end);
    const after = this.layer.children[this.lines.length - end] ?? null;
    for (const line of old) line.remove();
    for (const line of lines.slice(start, lines.length - end)) this.layer.insertBefore(drawn(line, []), after);
    this.lines = lines;
  }

  /** Marks lines, which count from 0, in the place of the earlier marks of this kind. */
  mark(kind, marks) {
    const earlier = this.marks.get(kind) ?? [];
    if (JSON.stringify(earlier) === JSON.stringify(marks)) return;
    this.marks.set(kind, marks);
    for (const line of new Set([...earlier, ...marks].map((mark) => mark.line))) this.draw(line);
  }

  draw(line) {
    const here = [...this.marks.values()].flat().filter((mark) => mark.line === line);
    this.layer.children[line]?.replaceWith(drawn(this.lines[line], here));
  }
}
