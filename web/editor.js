// A text area over its painted copy, with line numbers.
import { Paint, parenthesisAt, partnerOf } from "./paint.js";

/** The values that are told of a line, by the columns of the tables in which they stand. */
function valuesOf(places) {
  return [...Map.groupBy(places, ({ columns }) => columns)]
    .map(([columns, here]) => ({ columns, values: here.map(({ value }) => value).join(", ") }));
}

export class Editor {
  /** Fills a section of the page, whose title names it. */
  constructor(section) {
    const title = section.querySelector("h2");
    title.id = `${section.id}-title`;
    this.section = section;
    this.layer = document.createElement("div");
    this.layer.className = "paint";
    this.layer.setAttribute("aria-hidden", "true");
    this.area = document.createElement("textarea");
    this.area.spellcheck = false;
    this.area.wrap = "off";
    this.area.autocapitalize = "off";
    this.area.setAttribute("aria-labelledby", title.id);
    this.says = document.createElement("p");
    this.says.className = "says";
    this.says.id = `${section.id}-says`;
    const lines = document.createElement("div");
    lines.className = "lines";
    lines.append(this.layer, this.area);
    section.append(lines, this.says);
    this.paint = new Paint(this.layer);
    this.area.addEventListener("scroll", () => this.follow());
    this.area.addEventListener("input", () => this.written());
    document.addEventListener("selectionchange", () => this.followCursor());
    this.area.addEventListener("blur", () => this.followCursor());
    this.written();
  }

  get text() { return this.area.value; }

  set text(text) {
    this.area.value = text;
    this.area.setSelectionRange(0, 0);
    this.area.scrollTo(0, 0);
    this.written();
  }

  /** The line of the cursor, from 1. */
  get line() { return this.place(this.area.selectionStart).line + 1; }

  written() {
    this.clear();
    this.paint.write(this.text);
    this.section.classList.toggle("empty", this.text.trim() === "");
    this.follow();
  }

  /** The painted copy scrolls with the text area. */
  follow() {
    this.layer.scrollTop = this.area.scrollTop;
    this.layer.scrollLeft = this.area.scrollLeft;
  }

  /** The line of an offset, and its place there; both count from 0. */
  place(offset) {
    const before = this.text.slice(0, offset).split("\n");
    return { line: before.length - 1, from: before[before.length - 1].length };
  }

  /** A mark of one letter. */
  letter(offset, look) {
    const { line, from } = this.place(offset);
    return { line, from, to: from + 1, look };
  }

  /** Marks the cursor's line and the parentheses beside it, while the text area has the focus. */
  followCursor() {
    const isFocused = document.activeElement === this.area;
    this.paint.mark("here", isFocused ? [{ line: this.line - 1, look: "here" }] : []);
    if (isFocused) this.matchParentheses();
    else this.paint.mark("match", []);
  }

  matchParentheses() {
    const { selectionStart: cursor, selectionEnd: end } = this.area;
    const at = cursor === end ? parenthesisAt(this.text, cursor) : -1;
    const partner = at < 0 ? -1 : partnerOf(this.text, at);
    const places = [at, partner].filter((place) => place >= 0);
    this.paint.mark("match", places.map((place) => this.letter(place, partner < 0 ? "unmatched" : "match")));
  }

  /** Takes a fault and what is told away. */
  clear() {
    this.says.textContent = "";
    this.area.removeAttribute("aria-invalid");
    this.area.removeAttribute("aria-describedby");
    this.paint.mark("fault", []);
    this.paint.mark("told", []);
  }

  /** Marks what is told of lines, each beside its line; lines count from 1. */
  tell(places) {
    const lines = Map.groupBy(places, ({ line }) => line - 1);
    this.paint.mark("told", [...lines].flatMap(([line, here]) => [
      { line, look: "told", values: valuesOf(here) },
      ...here.filter(({ to }) => to !== undefined).map(({ from, to }) => ({ line, from, to, look: "because" })),
    ]));
  }

  /** Shows a fault at its offset in bytes. */
  show(offset, message) {
    const bytes = new TextEncoder().encode(this.text);
    const place = new TextDecoder().decode(bytes.slice(0, offset)).length;
    const { line, from } = this.place(place);
    this.paint.mark("fault", [{ line, look: "faulty" }, { line, from, to: from + 1, look: "fault" }]);
    this.says.textContent = `${line + 1}:${from + 1}: ${message}`;
    this.area.setAttribute("aria-invalid", "true");
    this.area.setAttribute("aria-describedby", this.says.id);
    this.select(place, Math.min(place + 1, this.text.length));
  }

  /** Takes the cursor to a line and a column, which count from 1. */
  go(line, column) {
    const before = this.text.split("\n").slice(0, line - 1).reduce((sum, one) => sum + one.length + 1, 0);
    this.select(before + column - 1, before + column - 1);
  }

  select(from, to) {
    this.area.focus();
    this.area.setSelectionRange(from, to);
    const height = this.area.scrollHeight / this.text.split("\n").length;
    this.area.scrollTop = Math.max(0, (this.place(from).line - 4) * height);
    this.section.scrollIntoView({ block: "nearest" });
  }
}
