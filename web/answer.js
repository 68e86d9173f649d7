// The answer: a verdict, texts, a diagram, and what is told of the lines, marked in the editors too.
import { faultOf, linesOf, toldOf } from "./questions.js";

const at = (id) => document.getElementById(id);
const SCROLL_BAR = 16;
const LOOKS = { correct: "right", wrong: "wrong" };

export class Answer {
  constructor(editors) {
    this.editors = editors;
    at("diagram").addEventListener("load", () => this.fit());
    addEventListener("resize", () => this.fit());
  }

  clear() {
    at("verdict").textContent = at("verdict").className = "";
    at("text").textContent = "";
    at("diagram").hidden = at("case").hidden = at("asks-why").hidden = at("earlier").hidden = true;
    at("hint").hidden = false;
    for (const editor of Object.values(this.editors)) editor.clear();
  }

  /** What stays readable when a text is changed, so that a case can be read while its cause is mended. */
  aside() {
    const verdict = at("verdict").textContent;
    if (!verdict.startsWith("wrong")) return at("earlier").hidden ? null : at("earlier").cloneNode(true);
    const aside = at("earlier").cloneNode(true);
    aside.open = false;
    aside.querySelector("summary").textContent = `before the change: ${verdict}`;
    aside.querySelector("pre").textContent = at("text").textContent;
    return aside;
  }

  setAside(aside) {
    if (aside === null) return;
    at("earlier").replaceWith(aside);
    aside.hidden = false;
  }

  /** Shows what came: a fault at its place, or a text, a diagram and a case. */
  show(came, design) {
    at("hint").hidden = true;
    const fault = faultOf(came.err, design);
    if (fault) {
      at("verdict").textContent = `rejected: see ${at(`${fault.file}-title`).firstChild.textContent.trim()}`;
      this.editors[fault.file].show(fault.offset, fault.message);
      return;
    }
    this.showVerdict(came.verdict ?? "");
    at("text").replaceChildren(...this.linked(came.err + came.text));
    this.tell(came.text, design);
    at("diagram").hidden = !came.page;
    if (came.page && came.page !== at("diagram").srcdoc) at("diagram").srcdoc = came.page;
    this.showCase(came.caseText ?? "", came.verdict ?? "");
    at("asks-why").hidden = !came.isCase;
    if (at("verdict").getBoundingClientRect().bottom > innerHeight) at("answer").scrollIntoView();
  }

  showVerdict(verdict) {
    at("verdict").textContent = verdict;
    at("verdict").className = LOOKS[verdict.split(" ")[0]] ?? "";
  }

  showCase(text, verdict) {
    at("case").hidden = text === "";
    at("case").querySelector("summary").textContent =
      verdict === "correct" ? "a case that meets the invariant" : "the case as a text";
    at("case").querySelector("pre").textContent = text;
  }

  /** Marks in the editors what a text tells of their lines. */
  tell(text, design) {
    const told = toldOf(text, design);
    for (const [file, editor] of Object.entries(this.editors)) editor.tell(told.filter((one) => one.file === file));
  }

  /** A text whose places are buttons that lead to them. */
  linked(text) {
    return linesOf(text).flatMap(({ line, indent, place, says }, index) => {
      const end = index === 0 ? [] : ["\n"];
      if (!place) return [...end, line];
      const leads = document.createElement("button");
      leads.type = "button";
      leads.className = "place";
      leads.textContent = `${place.file}:${place.line}:${place.column}`;
      leads.addEventListener("click", () => this.editors[place.file].go(place.line, place.column));
      return [...end, indent, leads, says];
    });
  }

  /** Makes the diagram as high as what it shows, now and whenever its switch is used. No script runs in it. */
  fit() {
    const shown = at("diagram").contentDocument;
    if (!shown || !shown.body) return;
    const fitted = () => {
      at("diagram").style.height = "0";
      const page = shown.documentElement;
      const bar = page.scrollWidth > page.clientWidth ? SCROLL_BAR : 0;
      at("diagram").style.height = `${page.scrollHeight + 2 + bar}px`;
    };
    shown.onchange = fitted;
    fitted();
  }
}
