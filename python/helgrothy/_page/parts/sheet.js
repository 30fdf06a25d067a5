// A text, and what is wrong with it: it is looked at as it is typed.

const QUIET = 250;
const SEEN_AT_MOST = 50;

class Sheet {
  constructor() {
    this.remarks = [];
    this.asked = null;
    this.text = get("text");
    this.text.addEventListener("input", () => this.change());
    this.text.addEventListener("scroll", () => this.scroll());
    this.text.addEventListener("keydown", (event) => event.key === "Escape" && get("solve").focus());
  }

  // Another text, as it is where nobody has typed it.
  put(text) {
    this.text.value = text;
    this.remarks = [];
    this.show();
    this.lint();
  }

  change() {
    this.remarks = [];
    this.show();
    clearTimeout(this.timer);
    this.timer = setTimeout(() => this.lint(), QUIET);
  }

  async lint() {
    if (this.asked) this.asked.abort();
    const asked = (this.asked = new AbortController());
    try {
      for await (const lines of answered({ what: "lint", text: this.text.value }, asked.signal)) {
        for (const line of lines) if (line.remarks) this.take(line.remarks);
      }
    } catch (error) {
      if (!asked.signal.aborted) say(reasonOf(error));
    }
  }

  take(remarks) {
    this.remarks = remarks;
    this.show();
  }

  // Where a remark's token stands in its line: the last such word, since where one is repeated that one is wrong.
  place({ line, token }) {
    const text = this.text.value.split("\n")[line - 1] || "";
    if (!token) return [0, text.length];
    const words = [...text.matchAll(/[^ \t\v\f\r]+/g)];
    const word = words.filter((found) => found[0] === token).pop();
    const start = word ? word.index : text.indexOf(token);
    return start < 0 ? [0, text.length] : [start, start + token.length];
  }

  show() {
    const lines = this.text.value.split("\n");
    get("numbers").textContent = lines.map((_, number) => number + 1).join("\n") + "\n ";
    const byLine = new Map();
    for (const remark of this.remarks) {
      byLine.set(remark.line, [...(byLine.get(remark.line) || []), remark]);
    }
    const marked = lines.map((text, number) => this.marked(text, byLine.get(number + 1) || []));
    get("marks").replaceChildren(...marked.flatMap((parts) => [...parts, "\n"]), " ");
    const shown = this.remarks.slice(0, SEEN_AT_MOST).map((remark) => this.item(remark));
    if (this.remarks.length > SEEN_AT_MOST) {
      shown.push(made("li", { textContent: `and ${this.remarks.length - SEEN_AT_MOST} more` }));
    }
    get("remarks").replaceChildren(...shown);
    this.scroll();
  }

  // A line with marks at the tokens of its remarks.
  marked(text, remarks) {
    const parts = [];
    let at = 0;
    const places = remarks.map((remark) => [...this.place(remark), remark]);
    for (const [start, end, remark] of places.sort((a, b) => a[0] - b[0] || b[1] - a[1])) {
      if (start < at || end === start) continue;
      const className = remark.fault ? "wrong" : "odd";
      parts.push(text.slice(at, start), made("mark", { className, textContent: text.slice(start, end) }));
      at = end;
    }
    parts.push(text.slice(at));
    return parts;
  }

  item(remark) {
    const name = remark.name ? made("code", { textContent: remark.name }) : "";
    const button = made("button", { type: "button", className: remark.fault ? "wrong" : "odd" });
    button.append(made("span", { textContent: `line ${remark.line}` }), " ", name, name ? ": " : "", remark.text);
    button.addEventListener("click", () => this.select(remark));
    return made("li", {}, button);
  }

  // Puts the cursor onto a remark's token.
  select(remark) {
    const [start, end] = this.place(remark);
    const before = this.text.value.split("\n").slice(0, remark.line - 1).join("\n").length + (remark.line > 1 ? 1 : 0);
    this.text.focus();
    this.text.setSelectionRange(before + start, before + end);
  }

  scroll() {
    get("marks").style.transform = `translate(${-this.text.scrollLeft}px, ${-this.text.scrollTop}px)`;
    get("numbers").style.transform = `translateY(${-this.text.scrollTop}px)`;
  }
}
