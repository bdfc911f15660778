/* The page's fragment: "#step=63", "#line=65", and in the editor "#script=..&step=63". Pure. */

export function readFragment(text) {
  const parts = new Map();
  for (const part of text.replace(/^#/, "").split("&")) {
    const at = part.indexOf("=");
    if (at > 0) parts.set(part.slice(0, at), part.slice(at + 1));
  }
  return parts;
}

export const writeFragment = (parts) => "#" + [...parts].map(([name, value]) => name + "=" + value).join("&");

/* The moment that a fragment names; -1 where it names none. */
export function momentNamed(trace, parts) {
  const number = (name) => /^\d{1,9}$/.test(parts.get(name) || "") ? Number(parts.get(name)) : -1;
  if (number("step") >= 0) return trace.momentForStep(number("step"));
  return number("line") >= 0 ? trace.momentForLine(number("line")) : -1;
}

/* A fragment's parts with those that name a moment. */
export function nameMoment(trace, moment, parts) {
  const named = new Map(parts), step = trace.stepOf[moment], line = trace.lineAt(moment);
  named.delete("step");
  named.delete("line");
  if (step || !line) named.set("step", String(step)); else named.set("line", String(line.line));
  return named;
}
