// The exercise of a riddle: which line was changed, and whether it does harm.

const at = (id) => document.getElementById(id);

export class Riddle {
  /** The line under the cursor, from 1, and the text of the pipeline as it stands. */
  constructor(cursor, text) {
    this.cursor = cursor;
    this.text = text;
    this.answer = null;
    at("name-line").addEventListener("click", () => this.say(this.judgeLine(this.cursor())));
    at("no-harm").addEventListener("click", () => this.say(this.judgeHarmless()));
  }

  /** Sets a riddle, or none. */
  set(answer) {
    this.answer = answer;
    at("riddle").hidden = answer === null;
    at("riddle-title").textContent = answer === null ? "" : `Riddle ${answer.number}: ${answer.machine}`;
    this.say("");
    this.moved();
  }

  say(text) { at("riddle-says").textContent = text; }

  /** Says which line would be named; a changed text can't be judged line by line. */
  moved() {
    if (this.answer === null) return;
    const changed = this.text() !== this.answer.text;
    at("name-line").disabled = at("no-harm").disabled = changed;
    at("name-line").textContent = `line ${this.cursor()} is wrong`;
  }

  judgeLine(line) {
    const { answer } = this;
    if (line !== answer.line) return `No. Line ${line} is as in the right machine. Ask check, and then why.`;
    if (answer.harmless) return `Line ${line} was changed. But is it wrong? Ask check.`;
    return `Yes. ${answer.says} In the right machine: ${answer.right.trim()}`;
  }

  judgeHarmless() {
    const { answer } = this;
    if (!answer.harmless) return "No. Ask check: it finds a case.";
    return `Yes. ${answer.says} Changed was line ${answer.line}.`;
  }

  /** Takes a verdict on the text as it stands: a mended riddle is solved. */
  checked(verdict) {
    if (this.answer === null || verdict !== "correct" || this.text() === this.answer.text) return;
    const same = this.text().split("\n")[this.answer.line - 1]?.trim() === this.answer.right.trim();
    this.say(same ? "Solved: the line is as in the right machine." : "Solved: the machine is right again, in your own way.");
  }
}
