/* Lines of blocks. Those that rosm_source has made of an old source are words, bytes and labels, each with the
   source's line as a comment; that line is shown in their place. Pure. */

const DATA = /^ DC[DB] &[0-9A-F]+(?:,&[0-9A-F]+)*(?: ; (.*))?$/;
const LABEL = /^(\w+)(?: ; .*)?$/;
const NOTE = /^ ; /;
const END = /^\s*END\s*$/i;

/* Whether rosm_source has made a block: it has nothing but these lines, and a source's line among them. */
const isMade = (texts) => texts.some((text) => DATA.exec(text)?.[1]) &&
  texts.every((text) => DATA.test(text) || LABEL.test(text) || NOTE.test(text) || END.test(text));

/* The lines of a block as their source has them. Of a macro's line, with its parameters, only a comment is known. */
export function sourceLines(texts) {
  if (!isMade(texts)) return texts;
  let label = "";
  return texts.map((text) => {
    const source = DATA.exec(text)?.[1];
    if (!source) {
      label = LABEL.exec(text)?.[1] ?? label;
      return text;
    }
    if (/\$\w/.test(source)) return " ; " + source;
    const first = source.split(/\s/, 1)[0];
    return first === label || /^[\d.]/.test(first) ? source : " " + source;
  });
}
