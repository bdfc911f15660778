/* Scripts from files, and into files. Nothing leaves this computer. */

/* A script has at most so many bytes here, as in rosm. */
const MOST_BYTES = 1 << 20;

/* The text of a file. An Error says why it is no script. */
export async function textOfFile(file) {
  if (file.size > MOST_BYTES) throw new Error(`${file.name} has more than 1,048,576 bytes.`);
  const text = new TextDecoder().decode(await file.arrayBuffer());
  if (text.includes("\0")) throw new Error(`${file.name} is no script: it isn't a text.`);
  return text.replace(/\r\n?/g, "\n");
}

/* Has the browser save a text as a file. */
export function saveText(text, name) {
  const link = document.createElement("a");
  link.href = URL.createObjectURL(new Blob([text], { type: "text/plain" }));
  link.download = name;
  link.click();
  setTimeout(() => URL.revokeObjectURL(link.href), 1000);
}
