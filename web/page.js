// The page: a design is chosen or written, a question is asked, and its answer is shown.
import { Answer } from "./answer.js";
import { Editor } from "./editor.js";
import { Gallery } from "./gallery.js";
import { designOf, linkOf } from "./link.js";
import { askAbout, askBounded, askCheck, askWhy } from "./questions.js";
import { Riddle } from "./riddle.js";
import { Runner } from "./runner.js";

const at = (id) => document.getElementById(id);
const FILES = ["pipe", "spec", "inv", "start"];
const editors = Object.fromEntries(FILES.map((file) => [file, new Editor(at(file))]));
const gallery = new Gallery(JSON.parse(at("gallery").textContent));
const bytesOfModule = Uint8Array.from(atob(at("module").textContent), (letter) => letter.charCodeAt(0));
const runner = new Runner(at("worker").textContent, bytesOfModule);
const answer = new Answer(editors);
const riddle = new Riddle(() => editors.pipe.line, () => editors.pipe.text);

/** The last case and what is shown with it. */
let last = null;

/** The number of the latest question. Only its answer is shown. */
let latest = 0;

function design() {
  return Object.fromEntries(FILES.map((file) => [file, editors[file].text]));
}

function fill(name, texts) {
  forget();
  at("design").value = name;
  for (const file of FILES) editors[file].text = texts[file];
  riddle.set(gallery.riddle(name));
}

/** Ends the question under way, and takes away what is shown of the text as it was. */
function forget() {
  endQuestion();
  last = null;
  answer.clear();
}

/** Ends the question under way: whatever comes of it later isn't shown. */
function endQuestion() {
  latest += 1;
  runner.stop();
  at("stop").disabled = true;
  note("");
}

function note(text) { at("note").textContent = text; }

/** Asks, while the page can stop it. A newer question, another text or a stop ends it. */
async function ask(question) {
  endQuestion();
  const number = latest;
  const asked = design();
  note("running ..");
  at("stop").disabled = false;
  try {
    const came = await question(asked);
    if (number !== latest) return;
    note("");
    if (came.isCase) last = { ...came, design: asked };
    answer.show(came, asked);
    riddle.checked(came.verdict);
  } catch (error) {
    if (number !== latest) return;
    note(`no answer: ${error.message}`);
  }
  at("stop").disabled = true;
}

function check() {
  forget();
  return ask((asked) => askCheck(runner, asked, at("diverse").checked));
}

function about() {
  forget();
  return ask((asked) => askAbout(runner, asked));
}

function bounded() {
  if (!at("cycles").reportValidity()) return undefined;
  forget();
  if (editors.start.text.trim() === "") {
    editors.start.show(0, "write where runs begin, such as (start (not v)), or (start true)");
    return undefined;
  }
  return ask((asked) => askBounded(runner, asked, at("cycles").valueAsNumber));
}

function why() {
  if (last === null) return undefined;
  const shown = last;
  return ask(async () => ({ ...shown, ...await askWhy(runner, shown.design, shown.caseText, at("of").value.trim()) }));
}

function stop() {
  endQuestion();
  note("stopped");
}

async function copyLink() {
  const link = new URL(await linkOf(design()), location.href).href;
  history.replaceState(null, "", link);
  try {
    await navigator.clipboard.writeText(link);
    note("the link is copied");
  } catch {
    note("the link stands in the address");
  }
}

/** Begins with the link's design, a design of the gallery that it names, or the first. */
async function begin() {
  forget();
  const number = latest;
  const name = location.hash.startsWith("#g=") ? decodeURIComponent(location.hash.slice(3)) : gallery.first;
  const linked = await designOf(location.hash).catch(() => null);
  if (number !== latest) return;
  const known = gallery.design(name);
  if (linked) fill("", linked);
  else if (known) fill(name, known);
  else fill(gallery.first, gallery.design(gallery.first));
  const isLost = location.hash !== "" && !linked && !(known && location.hash.startsWith("#g="));
  if (isLost) note("the link holds no design");
}

function edited() {
  at("design").value = "";
  const aside = answer.aside();
  forget();
  answer.setAside(aside);
  riddle.moved();
}

function onEnter(event, asked) {
  if (event.key !== "Enter") return;
  event.preventDefault();
  asked();
}

gallery.list(at("design"));
at("ask").addEventListener("submit", (event) => { event.preventDefault(); check(); });
at("asks-why").addEventListener("submit", (event) => { event.preventDefault(); why(); });
at("about").addEventListener("click", about);
at("bounded").addEventListener("click", bounded);
at("cycles").addEventListener("keydown", (event) => onEnter(event, bounded));
at("stop").addEventListener("click", stop);
at("link").addEventListener("click", copyLink);
at("design").addEventListener("change", () => {
  const { value } = at("design");
  if (value !== "") fill(value, gallery.design(value));
});
for (const file of FILES) {
  editors[file].area.addEventListener("input", edited);
  editors[file].area.addEventListener("keydown", (event) => { if (event.ctrlKey) onEnter(event, check); });
}
document.addEventListener("selectionchange", () => riddle.moved());
addEventListener("hashchange", begin);
runner.module.catch(() => {
  at("check").disabled = at("about").disabled = at("bounded").disabled = true;
  at("unsupported").hidden = false;
});
globalThis.burchDill = { runner };
begin();
