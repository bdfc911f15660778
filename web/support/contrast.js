// Run in the page: texts that can be seen and have too little contrast, 4.5, or 3 where they are large.
const parse = (text) => { const n = (text.match(/[\d.]+/g) || []).map(Number); return n.length < 3 ? null
  : [n[0], n[1], n[2], n.length > 3 ? n[3] : 1]; };
const over = (top, under) => top.slice(0, 3).map((v, i) => v * top[3] + under[i] * (1 - top[3])).concat(1);
const luminance = ([r, g, b]) =>
  [r, g, b].map((v) => v / 255).map((v) => v <= 0.04045 ? v / 12.92 : ((v + 0.055) / 1.055) ** 2.4)
  .reduce((sum, v, i) => sum + v * [0.2126, 0.7152, 0.0722][i], 0);
const behind = (element) => {
  const layers = [];
  for (let e = element; e; e = e.parentElement) {
    const colour = parse(getComputedStyle(e).backgroundColor);
    if (colour && colour[3]) { layers.push(colour); if (colour[3] === 1) break; }
  }
  return layers.reduceRight((under, top) => over(top, under), [255, 255, 255, 1]);
};
const poor = new Set();
for (const element of document.querySelectorAll(arguments[0])) {
  const own = [...element.childNodes].some((node) => node.nodeType === 3 && node.textContent.trim());
  const box = element.getBoundingClientRect(), style = getComputedStyle(element);
  if (!own || !box.width || !box.height || style.visibility === "hidden" || element.disabled
    || element.closest("svg")) continue;
  let opacity = 1;
  for (let e = element; e; e = e.parentElement) opacity *= Number(getComputedStyle(e).opacity);
  const colour = parse(style.color), back = behind(element);
  if (!colour || !colour[3]) continue;
  const ink = over([...colour.slice(0, 3), colour[3] * opacity], back);
  const [high, low] = [luminance(ink), luminance(back)].sort((a, b) => b - a), ratio = (high + 0.05) / (low + 0.05);
  const size = parseFloat(style.fontSize), isLarge = size >= 24 || size >= 18.66 && Number(style.fontWeight) >= 700;
  if (ratio < (isLarge ? 3 : 4.5)) poor.add(`${element.className || element.id || element.tagName} "${element.textContent.trim().slice(0, 12)}" ${ratio.toFixed(2)}`);
}
return [...poor].slice(0, 12);
