// What is asked of a design, and what its answers are.

const REFUSED = 3;
const SHOWN = "diagram.html";
const FILE = "(pipe|spec|inv|start)";
const FAULT = new RegExp(`^${FILE}:(\\d+):(\\d+): (.*)`);
const PLACE = new RegExp(`^(\\s*)${FILE}:(\\d+):(\\d+)(: (.*))?$`);

/** A design's files as the program gets them; an empty invariant is none. */
function designFiles(design) {
  const files = [["pipe", design.pipe], ["spec", design.spec]];
  if (design.inv.trim() !== "") files.push(["inv", design.inv]);
  return files;
}

/** The names of the invariant, where there is one. */
function invariantOf(files) {
  return files.filter(([name]) => name === "inv").map(([name]) => name);
}

/** What the program printed: its first line, and the case or the trail below it. */
function parts(out) {
  const end = out.indexOf("\n");
  return { verdict: end < 0 ? "" : out.slice(0, end), caseText: out.slice(end + 1) };
}

/** Asks for the verdict; a case comes with its tables and its diagram, and a fault with what the companion says of it. */
export async function askCheck(runner, design, diverse) {
  const files = designFiles(design);
  const words = ["burch_dill", "check", "pipe", "spec", ...invariantOf(files)];
  const checked = await runner.run(diverse ? [...words, "--diverse"] : words, files);
  if (checked.status === REFUSED) return askAbout(runner, design);
  const { verdict, caseText } = parts(checked.out);
  if (!verdict.startsWith("wrong")) return { ...checked, verdict, text: "", caseText };
  const shown = await askShow(runner, files, checked.out, invariantOf(files));
  return { ...shown, verdict, caseText: checked.out, status: checked.status, isCase: true };
}

/** Asks whether a pipeline is right for some cycles from a start; the first cycle that isn't comes with its tables. */
export async function askBounded(runner, design, cycles) {
  const files = [["pipe", design.pipe], ["spec", design.spec], ["start", design.start]];
  const bounded = await runner.run(["burch_dill", "bounded", "pipe", "spec", "start", `${cycles}`], files);
  if (bounded.status === REFUSED) return faultInTrail(runner, files, bounded);
  const { verdict, caseText } = parts(bounded.out);
  if (!verdict.startsWith("wrong")) return { ...bounded, verdict, text: "", caseText };
  const shown = await askShow(runner, files, bounded.out, ["start"]);
  return { ...shown, verdict, caseText: bounded.out, status: bounded.status };
}

/** A fault of the three files as the companion tells it, which reads them before the trail. */
async function faultInTrail(runner, files, bounded) {
  const said = await runner.run(["bd_view", "show", "pipe", "spec", "trail", "start"], [...files, ["trail", "(trail 1)"]]);
  return { ...bounded, text: "", err: FAULT.test(said.err) ? said.err : bounded.err };
}

/** Asks for both ways round the diagram of a case or a trail, as a text and as a page. */
async function askShow(runner, files, caseText, lastWords) {
  const words = ["bd_view", "show", "pipe", "spec", "case", ...lastWords, "--html", SHOWN];
  const shown = await runner.run(words, [...files, ["case", caseText]]);
  const page = shown.files[SHOWN];
  return { ...shown, text: shown.out, page: page && new TextDecoder().decode(page) };
}

/** Asks why a value of a case is what it is: the one that is named, or the first that differs where none is. */
export async function askWhy(runner, design, caseText, value) {
  const files = designFiles(design);
  const words = ["bd_view", "why", "pipe", "spec", "case", ...invariantOf(files), ...(value ? ["--of", value] : [])];
  const said = await runner.run(words, [...files, ["case", caseText]]);
  return { ...said, text: said.out };
}

/** Asks what can be said of a design without a case. */
export async function askAbout(runner, design) {
  const files = designFiles(design);
  const said = await runner.run(["bd_view", "about", "pipe", "spec", ...invariantOf(files)], files);
  return { ...said, text: said.out };
}

/** The fault that the companion tells, at a line and a column: below the line and its caret stands what helps. */
export function faultOf(err, design) {
  const [first, ...rest] = err.trimEnd().split("\n");
  const found = FAULT.exec(first);
  if (!found) return null;
  const [, file, line, column, message] = found;
  const helps = rest.slice(rest.findIndex((text) => text.trim() === "^") + 1);
  return { file, offset: offsetOf(design[file], Number(line), Number(column)), message: [message, ...helps].join("\n") };
}

/** The offset in bytes of a column, in bytes too, of a line; both count from 1. */
function offsetOf(text, line, column) {
  const before = text.split("\n").slice(0, line - 1).map((whole) => `${whole}\n`).join("");
  return new TextEncoder().encode(before).length + column - 1;
}

/** The lines of an answer; one that tells of a place in a file has it, and what it says of it. */
export function linesOf(text) {
  return text.split("\n").map((line) => {
    const found = PLACE.exec(line);
    if (!found) return { line };
    const [, indent, file, at, column, says = ""] = found;
    return { line, indent, place: { file, line: Number(at), column: Number(column) }, says };
  });
}

/** What an answer says of a place, as the columns of the tables and a value there: no reasons, and not what would do. */
function columnAndValue(says) {
  const [said] = says.split(/ since | \(as in | \((?:[^ ()]+|another word) would do\)/);
  const [, stays, span] = /^: (.*) holds from (.*)$/.exec(said) ?? [];
  if (stays) return { columns: span, value: stays };
  const [, columns = "", value] = /^: (?:(.*?): )?(.*)$/.exec(said) ?? ["", "", ""];
  return { columns, value };
}

/**
 * The part of a line that decides, as the columns from which and before which it stands. Below what an answer says of a
 * place may stand the line itself, moved to the right, and carets under that part.
 */
function decidingPart(below, whole) {
  const end = below.findIndex(({ place }) => place);
  const block = (end < 0 ? below : below.slice(0, end)).map(({ line }) => line);
  const under = block.findIndex((line) => /^ *\^+$/.test(line));
  const source = block[under - 1] ?? "";
  if (whole === "" || !source.endsWith(whole)) return {};
  const moved = source.length - whole.length;
  return { from: block[under].indexOf("^") - moved, to: block[under].length - moved };
}

/** What an answer tells of the places of a design. */
export function toldOf(text, design) {
  const lines = linesOf(text);
  return lines.flatMap(({ place, says }, index) => {
    if (!place) return [];
    const whole = design[place.file]?.split("\n")[place.line - 1] ?? "";
    return [{ ...place, ...columnAndValue(says), ...decidingPart(lines.slice(index + 1), whole) }];
  });
}
