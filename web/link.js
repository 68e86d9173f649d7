// A design in a link.

/** Bytes as a text that a link can hold, and back. */
function toLink(bytes) {
  let letters = "";
  for (const byte of bytes) letters += String.fromCharCode(byte);
  return btoa(letters).replace(/\+/g, "-").replace(/\//g, "_").replace(/=+$/, "");
}

function fromLink(text) {
  const letters = atob(text.replace(/-/g, "+").replace(/_/g, "/"));
  return Uint8Array.from(letters, (letter) => letter.charCodeAt(0));
}

/** The bytes that a stream makes of bytes. */
async function through(stream, bytes) {
  const piped = new Blob([bytes]).stream().pipeThrough(stream);
  return new Uint8Array(await new Response(piped).arrayBuffer());
}

/** The part of a link that holds a design. */
export async function linkOf({ pipe, spec, inv, start }) {
  const texts = start.trim() === "" ? [pipe, spec, inv] : [pipe, spec, inv, start];
  const bytes = new TextEncoder().encode(JSON.stringify(texts));
  return `#d=${toLink(await through(new CompressionStream("deflate-raw"), bytes))}`;
}

/** The design that a link holds, or nothing. A link may have no start. */
export async function designOf(link) {
  if (!link.startsWith("#d=")) return null;
  const bytes = await through(new DecompressionStream("deflate-raw"), fromLink(link.slice(3)));
  const texts = JSON.parse(new TextDecoder().decode(bytes));
  if (!Array.isArray(texts) || texts.some((text) => typeof text !== "string")) return null;
  if (texts.length !== 3 && texts.length !== 4) return null;
  const [pipe, spec, inv, start = ""] = texts;
  return { pipe, spec, inv, start };
}
