// The local page: what is filled in is solved when that is asked for. An answer comes line by line for as long as it is
// wanted: to let it go ends the search that gives it.

const GONE = "The page's server has ended: helgrothy page begins another.";
const FIELDS = ["cell", "grid", "row", "column", "label", "limit", "order", "seconds", "costs"];
const PATTERNS = ["cell", "grid", "row", "column", "label"];

const viewer = new Viewer("Solutions come here as they are found.");
const start = JSON.parse(get("data").textContent)[0];
const isNarrow = matchMedia("(max-width: 56rem)");

// The lines of an answer, as they come.
async function* answered(request, signal) {
  const answer = await fetch("answer", {
    method: "POST",
    headers: { "Content-Type": "application/json" },
    body: JSON.stringify(request),
    signal,
  });
  if (!answer.ok) throw new Error(await answer.text());
  const reader = answer.body.pipeThrough(new TextDecoderStream()).getReader();
  let rest = "";
  for (;;) {
    const { done, value } = await reader.read();
    if (done) return;
    const lines = (rest + value).split("\n");
    rest = lines.pop();
    if (lines.length) yield lines.map((line) => JSON.parse(line));
  }
}

function say(text, isWrong = false) {
  get("state").textContent = text;
  get("state").classList.toggle("wrong", isWrong);
}

function reasonOf(error) {
  return error instanceof TypeError ? GONE : error.message;
}

// ---- what is filled in

class Form {
  constructor() {
    this.kinds = new Kinds(start.kinds);
    this.sheet = new Sheet();
    this.typed = new Typed();
    const first = start.examples.find(({ kind }) => !kind);
    this.put((otherwise, ...path) => this.typed.value(path[0] === "text" ? first.text : otherwise, ...path));
    this.offer();
    this.bind();
    this.suit();
  }

  // All that is typed.
  get values() {
    const fields = Object.fromEntries(FIELDS.map((id) => [id, get(id).value]));
    const { name: kind, typed } = this.kinds;
    const values = Object.fromEntries([...typed].map(([name, its]) => [name, { ...its }]));
    return { isKind: this.isKind, kind, values, text: get("text").value, fields };
  }

  // Fills all in with what `value` gives for a path in such values, or else for what is there without it.
  put(value) {
    for (const id of FIELDS) fill(id, value(get(id).value, "fields", id));
    for (const { name, example } of start.kinds) {
      this.kinds.fill(name, (field, none) => value(example[field] ?? none, "values", name, field));
    }
    this.kinds.choose(value("", "kind"));
    this.sheet.put(value("", "text"));
    this.price();
    this.show(value(false, "isKind"));
  }

  // Costs are asked for where they count.
  price() {
    get("priced").hidden = get("order").value !== "cheapest";
    suit(get("costs"));
  }

  get isKind() {
    return !get("kinds").hidden;
  }

  show(isKind) {
    get("as-kind").setAttribute("aria-pressed", isKind);
    get("as-text").setAttribute("aria-pressed", !isKind);
    get("kinds").hidden = !isKind;
    get("texts").hidden = isKind;
    if (isKind) this.kinds.show();
    get("chosen").textContent = isKind ? get("kind").selectedOptions[0].textContent : "Your own problem";
  }

  request() {
    if (this.isKind) return this.kinds.request();
    const patterns = Object.fromEntries(PATTERNS.map((name) => [name, get(name).value]));
    return { text: get("text").value, ...patterns };
  }

  // ---- examples and files, which can be undone

  offer() {
    const [plans, texts] = ["Puzzles and plans", "Problems as a text"].map((label) => made("optgroup", { label }));
    for (const [place, { title, kind }] of start.examples.entries()) {
      (kind ? plans : texts).append(made("option", { value: place, textContent: title }));
    }
    get("example").append(plans, texts);
  }

  exemplify(example) {
    // Whoever goes through the examples gets back what was typed before.
    if (this.isTyped || get("undo").hidden) this.remember();
    if (example.kind) {
      this.kinds.fill(example.kind, (name, none) => example.values[name] ?? none);
      this.kinds.choose(example.kind);
    } else {
      for (const name of PATTERNS) fill(name, example[name]);
      get("patterns").open = PATTERNS.some((name) => example[name]);
      this.sheet.put(example.text);
    }
    if (example.costs || get("order").value === "cheapest") {
      fill("costs", example.costs);
      fill("order", example.costs ? "cheapest" : "");
      this.price();
    }
    this.show(Boolean(example.kind));
    this.keep();
  }

  async open(file) {
    try {
      const text = await readFile(file);
      this.remember();
      get("example").value = "";
      this.sheet.put(text);
      this.show(false);
      this.keep();
      say(`${file.name} was opened.`);
    } catch (error) {
      say(error.message, true);
    }
  }

  remember() {
    this.before = this.values;
    this.isTyped = false;
    get("undo").hidden = false;
  }

  undo() {
    const before = new Typed(this.before);
    this.put((otherwise, ...path) => before.value(otherwise, ...path));
    get("undo").hidden = true;
    get("example").value = "";
    get("example").focus();
    this.keep();
  }

  async save() {
    const name = this.isKind ? this.kinds.name : "problem";
    try {
      save(`${name}.dlx`, "text/plain", this.isKind ? await this.made() : get("text").value);
    } catch (error) {
      say(reasonOf(error), true);
    }
  }

  // The text of the problem that a kind makes.
  async made() {
    const asked = { what: "make", seconds: Number(get("seconds").value), ...this.request() };
    for await (const lines of answered(asked)) {
      for (const line of lines) {
        if (line.error) throw new Error(line.error);
        if (line.text) return line.text;
      }
    }
    throw new TypeError(GONE);
  }

  // ---- what people do

  // To what may be another problem than the example that was chosen.
  turn(isKind) {
    get("example").value = "";
    this.show(isKind);
  }

  bind() {
    get("as-kind").addEventListener("click", () => this.turn(true));
    get("as-text").addEventListener("click", () => this.turn(false));
    get("kind").addEventListener("change", () => this.turn(true));
    get("example").addEventListener("change", () => {
      if (get("example").value) this.exemplify(start.examples[get("example").value]);
    });
    get("undo").addEventListener("click", () => this.undo());
    for (const id of ["order", "costs"]) get(id).addEventListener("input", () => this.price());
    get("open").addEventListener("click", () => get("file").click());
    get("file").addEventListener("change", () => {
      if (get("file").files.length) this.open(get("file").files[0]);
      get("file").value = "";
    });
    get("save-problem").addEventListener("click", () => this.save());
    get("ask").addEventListener("input", (event) => {
      if (event.target !== get("example")) this.isTyped = true;
      this.keepSoon();
    });
    get("ask").addEventListener("click", () => this.keepSoon());
    addEventListener("pagehide", () => this.keep());
    isNarrow.addEventListener("change", () => this.suit());
  }

  keepSoon() {
    clearTimeout(this.timer);
    this.timer = setTimeout(() => this.keep(), QUIET);
  }

  keep() {
    const isKept = this.typed.keep(this.values);
    if (!isKept && !this.isWarned) say("The browser doesn't keep what is typed: save it before the page is left.");
    this.isWarned = !isKept;
  }

  // Where there is room, the form is always open.
  suit() {
    if (!isNarrow.matches) get("form").open = true;
  }

  // Makes room for solutions on a small screen, or shows what is to be mended.
  fold(isFolded) {
    if (!isNarrow.matches) return;
    // What had the focus goes out of view.
    if (isFolded && get("form").contains(document.activeElement)) get("form").querySelector("summary").focus();
    get("form").open = !isFolded;
    scrollTo(0, 0);
  }
}

function fill(id, value) {
  get(id).value = value;
  if (get(id).selectedIndex < 0) get(id).selectedIndex = 0;
}

// ---- a search

class Search {
  constructor() {
    this.going = null;
    get("solve").addEventListener("click", () => this.solve());
    get("random").addEventListener("click", () => this.solve({ way: "one" }));
    get("chances").addEventListener("click", () => this.solve({ what: "chances" }));
    get("stop").addEventListener("click", () => this.stop());
  }

  request(more) {
    const limit = Math.min(Math.max(parseInt(get("limit").value, 10) || 1, 1), 1000);
    get("limit").value = limit;
    const asked = { what: "solve", limit, way: get("order").value, seconds: Number(get("seconds").value) };
    const costs = asked.way === "cheapest" ? get("costs").value : "";
    return { ...asked, costs, ...form.request(), ...more };
  }

  // more: what is asked besides what is filled in.
  async solve(more = {}) {
    this.stop();
    const going = (this.going = new AbortController());
    viewer.clear();
    this.ready(false);
    document.body.classList.add("asked");
    form.fold(true);
    this.isWrong = false;
    say("Searching ..");
    try {
      for await (const lines of answered(this.request(more), going.signal)) {
        if (this.going !== going) return;
        viewer.take(lines);
        lines.forEach((line) => this.hear(line));
      }
      // Each answer has an end or an error.
      const isEnded = viewer.ended || viewer.chances;
      if (!this.isWrong) say(isEnded ? "" : GONE, !isEnded);
    } catch (error) {
      if (this.going === going) say(reasonOf(error), true);
    }
    if (this.going === going) this.finish();
  }

  hear(line) {
    if (line.remarks) form.sheet.take(line.remarks);
    if (line.counting) say("Counting all solutions ..");
    if (!line.error) return;
    this.isWrong = true;
    say(line.error, true);
    form.fold(viewer.solutions.length > 0);
  }

  finish() {
    this.going = null;
    this.ready(true);
    // One that was broken off has none, and why it was stands in the state.
    if (viewer.solutions.length) viewer.end();
  }

  stop() {
    if (!this.going) return;
    this.going.abort();
    this.going = null;
    this.ready(true);
    say("Stopped.");
    viewer.end("it was stopped");
  }

  ready(is) {
    get("stop").disabled = is;
    document.body.classList.toggle("searching", !is);
  }
}

// A file of the solutions that were found, which stands alone.
function savePage([before, between, behind]) {
  const data = JSON.stringify(viewer.lines).replace(/[<>&]/g, (sign) => `\\u00${sign.charCodeAt(0).toString(16)}`);
  const title = get("title").textContent.replace(/[<>&"]/g, (sign) => `&#${sign.charCodeAt(0)};`);
  save(`${viewer.slug}.html`, "text/html", before + title + between + data + behind);
}

document.body.classList.add("local");
for (const [id, level] of [["title", 2], ["went", 3]]) get(id).setAttribute("aria-level", level);
get("save-page").hidden = false;
get("save-page").addEventListener("click", () => savePage(start.file));
const form = new Form();
const search = new Search();
addEventListener("keydown", (event) => {
  if (!event.ctrlKey && !event.metaKey) return;
  if (event.key === "Enter") search.solve();
  else if (event.key === ".") search.stop();
  else return;
  event.preventDefault();
});
if (!form.isKind && !isNarrow.matches) get("text").focus();
