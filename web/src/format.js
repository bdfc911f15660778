/* Numbers, bytes and parts of source lines as text. Pure. */

export const hex = (value, digits) => (value >>> 0).toString(16).toUpperCase().padStart(digits || 1, "0");
export const hex8 = (value) => hex(value, 8);
export const address = (value) => "&" + hex(value);
export const signed = (value) => String(value | 0);

const isPrinting = (code) => code >= 32 && code < 127;

/* The four characters of a word, the lowest byte first; a dot for each that isn't a printing one. */
export function characters(value) {
  let text = "";
  for (let i = 0; i < 4; i++) {
    const code = value >>> 8 * i & 255;
    text += isPrinting(code) ? String.fromCharCode(code) : "·";
  }
  return text;
}

/* The forms of a word: hexadecimal, decimal, characters. */
export const FORMATS = ["hex", "dec", "chr"];
export const FORMAT_NAMES = { hex: "hexadecimal", dec: "decimal", chr: "characters" };
export const word = (value, format) =>
  format === "dec" ? signed(value) : format === "chr" ? characters(value) : hex8(value);

/* Decimal with commas. */
export const count = (n) => String(n).replace(/\B(?=(\d{3})+$)/g, ",");
export const plural = (n, one, many) => count(n) + " " + (n === 1 ? one : many || one + "s");

/* Bytes that a script or a guest wrote as text: UTF-8 where they are, else Latin-1. */
export function readable(bytes) {
  if (!/[\x80-\xff]/.test(bytes)) return bytes;
  try {
    const list = Uint8Array.from(bytes, (c) => c.charCodeAt(0));
    return new TextDecoder("utf-8", { fatal: true }).decode(list);
  } catch {
    return bytes;
  }
}

/* Text in which control characters can be seen; a return beside a line feed belongs to the line's end. */
export function visible(text) {
  return text.replace(/\n\r|\r\n/g, "\n")
    .replace(/[\x00-\x09\x0b-\x1f\x7f-\x9f]/g, (c) => "⟨" + hex(c.charCodeAt(0), 2) + "⟩");
}

const ESCAPES = { "\n": "\\n", "\r": "\\r", "\t": "\\t", '"': '\\"', "\\": "\\\\" };
export function quoted(bytes) {
  const escape = (c) => ESCAPES[c] || "\\x" + hex(c.charCodeAt(0), 2);
  return '"' + bytes.replace(/[\x00-\x1f"\\\x7f-\xff]/g, escape) + '"';
}

/* Where the comment of an assembler line begins, outside of quotes; its length where there is none. */
function commentAt(text) {
  let quote = false;
  for (let i = 0; i < text.length; i++) {
    if (text[i] === '"') quote = !quote;
    else if (text[i] === ";" && !quote) return i;
  }
  return text.length;
}

/* An assembler line in parts. */
export function sourceParts(text) {
  const at = commentAt(text);
  const [, label, gap, op, gap2, operands] = /^(\S*)(\s*)(\S*)(\s*)(.*)$/s.exec(text.slice(0, at));
  return { label, gap, op, gap2, operands, comment: text.slice(at) };
}

/* A line of the script without its comment, and the comment without its semicolon. */
export const withoutComment = (text) => text.replace(/(^|\s);.*$/s, "").trim();
export function commentOf(text) {
  const found = /(?:^|\s);\s*(.*)$/s.exec(text);
  return found ? found[1] : "";
}
export const isHeading = (text) => /^\s*#/.test(text);
export const withoutMarks = (text) => text.trim().replace(/^#+\s*/, "");
