// The program's one call, from the page: words and files are laid out as bytes, and what comes back is
// cut again. Each run has a module of its own, so nothing is left of one run for the next.

/** The statuses of the call that neither program ends with. */
const STATUS = { notParts: 256, notText: 257, cutOff: 258, memory: 259 };

const PAGE = 65536;
const WORD = 8;
const FIRST_ROOM = 1 << 26;
const MOST_ROOM = 1 << 30;

/** What they say; the first two don't come of texts. */
const SAYS = {
  [STATUS.cutOff]: "the answer is too long for this page: ask the program itself\n",
  [STATUS.memory]: "out of memory: ask the program itself\n",
};

/** How many files a run may save besides those that it is given. */
const MORE_FILES = 8;

/** The bytes of a text; bytes stay as they are. */
function bytesOf(part) {
  return typeof part === "string" ? new TextEncoder().encode(part) : part;
}

/** The text of bytes; what isn't text shows as U+FFFD. */
function textOf(bytes) {
  return new TextDecoder().decode(bytes);
}

/** The least multiple of a word that isn't less. */
function aligned(size) {
  return Math.ceil(size / WORD) * WORD;
}

/** Where in memory each piece of the call lies, one after another, and how much they take together. */
function layout(start, parts, backParts, room) {
  const lengths = start;
  const backLengths = lengths + parts.length * WORD;
  const count = backLengths + backParts * WORD;
  const bytes = count + WORD;
  const whole = parts.reduce((sum, part) => sum + part.length, 0);
  const back = bytes + aligned(whole);
  return { lengths, backLengths, count, bytes, whole, back, end: back + room };
}

/** Writes the parts and their lengths into memory. */
function writeParts(memory, at, parts) {
  const lengths = new BigUint64Array(memory.buffer, at.lengths, parts.length);
  const bytes = new Uint8Array(memory.buffer, at.bytes, at.whole);
  let end = 0;
  parts.forEach((part, index) => {
    lengths[index] = BigInt(part.length);
    bytes.set(part, end);
    end += part.length;
  });
}

/** The parts that came back. */
function readParts(memory, at) {
  const count = Number(new BigUint64Array(memory.buffer, at.count, 1)[0]);
  const lengths = new BigUint64Array(memory.buffer, at.backLengths, count);
  const parts = [];
  let start = at.back;
  for (const length of lengths) {
    parts.push(new Uint8Array(memory.buffer, start, Number(length)).slice());
    start += Number(length);
  }
  return parts;
}

/** One call, with so many bytes of room for what comes back. */
function callWithRoom(module, words, files, room) {
  const { memory, bd_web_run: call } = new WebAssembly.Instance(module, {}).exports;
  const parts = words.concat(...files).map(bytesOf);
  const backParts = 2 + 2 * (files.length + MORE_FILES);
  const size = layout(0, parts, backParts, room).end;
  const start = Number(memory.grow(BigInt(Math.ceil(size / PAGE)))) * PAGE;
  const at = layout(start, parts, backParts, room);
  writeParts(memory, at, parts);
  const status = call(
    BigInt(at.bytes), BigInt(at.whole),
    BigInt(at.lengths), BigInt(parts.length),
    BigInt(words.length),
    BigInt(at.back), BigInt(room),
    BigInt(at.backLengths), BigInt(backParts),
    BigInt(at.count),
  );
  return { status, parts: status < STATUS.notParts ? readParts(memory, at) : [] };
}

/** The files among parts, the first of a name counting. */
function filesOf(parts) {
  const files = {};
  for (let index = 0; index + 1 < parts.length; index += 2) {
    const name = textOf(parts[index]);
    if (!(name in files)) files[name] = parts[index + 1];
  }
  return files;
}

/** Runs the program on words and files, which are pairs of a name and a text. */
export function runOn(module, words, files) {
  for (let room = FIRST_ROOM; ; room *= 4) {
    const { status, parts } = callWithRoom(module, words, files, room);
    if (status === STATUS.cutOff && room < MOST_ROOM) continue;
    if (parts.length === 0) return { status, out: "", err: SAYS[status] ?? `status ${status}\n`, files: {} };
    const [out, err, ...rest] = parts;
    return { status, out: textOf(out), err: textOf(err), files: filesOf(rest) };
  }
}
