/* The editor: a text area with line numbers, in which the line of the present moment is marked. */

export class Writing {
  constructor({ area, numbers, mark }) {
    this.area = area;
    this.numbers = numbers;
    this.mark = mark;
    this.line = 0;
    area.addEventListener("input", () => { this.number(); this.showLine(0); });
    area.addEventListener("scroll", () => this.follow());
  }

  get text() { return this.area.value.endsWith("\n") || !this.area.value ? this.area.value : this.area.value + "\n"; }

  set text(value) {
    this.area.value = value;
    this.area.scrollTop = 0;
    this.number();
    this.showLine(0);
  }

  number() {
    const count = this.area.value.split("\n").length;
    if (count === this.count) return;
    this.count = count;
    this.numbers.textContent = Array.from({ length: count }, (_, i) => i + 1).join("\n");
  }

  follow() {
    this.numbers.style.transform = `translateY(${-this.area.scrollTop}px)`;
    this.mark.style.transform = `translateY(${(this.line - 1) * this.lineHeight - this.area.scrollTop}px)`;
  }

  get lineHeight() { return parseFloat(getComputedStyle(this.area).lineHeight); }

  /* Marks a line, 1 the first; 0 for none. It is scrolled to where it isn't in view. */
  showLine(line) {
    this.line = line;
    this.mark.hidden = !line;
    if (line) {
      const top = (line - 1) * this.lineHeight, { scrollTop, clientHeight } = this.area;
      const isInView = top >= scrollTop && top <= scrollTop + clientHeight - 2 * this.lineHeight;
      if (!isInView) this.area.scrollTop = top - clientHeight / 3;
    }
    this.follow();
  }
}
