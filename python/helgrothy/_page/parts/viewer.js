"use strict";

// Shows a problem and its solutions as a record gives them. Names come from a problem, whoever wrote it: they are put
// into the page as text, and pictures are made of the elements and attributes that are listed here.

const ELEMENTS = new Set("svg g rect path text tspan line circle ellipse polygon polyline".split(" "));
const ATTRIBUTES = new Set(
  ("width height viewBox x y x1 y1 x2 y2 dx dy cx cy r rx ry d points transform fill fill-opacity fill-rule opacity " +
    "stroke stroke-width stroke-linecap stroke-linejoin stroke-opacity stroke-dasharray font-family font-size " +
    "font-weight font-style text-anchor dominant-baseline paint-order").split(" "));
const MOST_STEPS = 2000;
// Of a longer option so many items are shown at first, and of forced steps one after another fewer than so many.
const MOST_WORDS = 8;
const FOLDED = 3;
const MOST_NAMES = 40;
const SAVED_WITHIN = 60_000;
const MOST_LINES = 30;
// A picture that is wider doesn't stand beside the options: there its letters would be too small.
const WIDE = 640;

const sentence = (text) => `${text[0].toUpperCase()}${text.slice(1).replace(/\.$/, "")}.`;
const get = (id) => document.getElementById(id);
const counted = (count, one, more = `${one}s`) => `${count.toLocaleString("en")} ${Number(count) === 1 ? one : more}`;

function made(name, words = {}, ...within) {
  const element = document.createElement(name);
  Object.assign(element, words);
  element.append(...within);
  return element;
}

// Has the browser save a text as a file.
function save(name, type, text) {
  const href = URL.createObjectURL(new Blob([text], { type }));
  made("a", { href, download: name }).click();
  setTimeout(() => URL.revokeObjectURL(href), SAVED_WITHIN);
}

class Viewer {
  // idle: what is said where there is nothing yet.
  constructor(idle = "") {
    this.idle = idle;
    // Of all cards those near what is seen have their pictures.
    this.near = new IntersectionObserver((cards) => this.fill(cards), { rootMargin: "100% 0px" });
    this.bind();
    this.clear();
  }

  // ---- what the record gives

  clear() {
    this.problem = null;
    this.solutions = [];
    this.options = new Map();
    // The options as they are shown: of some kinds by whole names, without the items of its rules.
    this.words = new Map();
    this.hasWords = false;
    this.held = new Map();
    this.elements = [];
    this.ended = null;
    // How many solutions there are, if that was counted.
    this.total = null;
    // A picture of the shares of all solutions, if that was asked for.
    this.chances = null;
    this.lines = [];
    this.found = [];
    this.at = 0;
    get("filter").value = "";
    this.dropCards();
    get("problem").hidden = true;
    get("title").textContent = "Solutions";
    this.refresh();
  }

  // Takes what is given; what is seen is made once for all of it.
  take(lines) {
    const had = this.found.length;
    for (const line of lines) {
      this.lines.push(line);
      if (line.problem) this.takeProblem(line.problem);
      if (line.solution) this.takeSolution(line.solution);
      if (line.end) this.ended = line.end;
      if (line.count) this.total = BigInt(line.count);
      if (line.chances) this.takeChances(line.chances);
    }
    if (!had || this.ended) this.refresh();
    else if (this.isAll) this.addCards();
    this.refreshCount();
  }

  // Ends what is given, if nothing else has: there may be more.
  end(...notes) {
    if (!this.ended) this.take([{ end: { total: this.solutions.length, complete: false, notes } }]);
  }

  takeProblem(problem) {
    this.problem = problem;
    const secondary = problem.secondary ? [counted(problem.secondary, "secondary one")] : [];
    const size = [counted(problem.primary, "primary item"), ...secondary, counted(problem.options, "option")];
    get("size").textContent = `${size.join(", ")}, for ${problem.program}`;
    const more = problem.more ? "\n.. and more, which isn't shown here" : "";
    get("given").textContent = problem.text.join("\n") + more;
    get("problem").hidden = false;
  }

  takeSolution(solution) {
    for (const element of solution.elements || []) this.elements.push(element);
    for (const [number, line] of Object.entries(solution.options || {})) {
      this.options.set(Number(number), line);
      this.words.set(Number(number), solution.words?.[number] ?? line);
      // A word with a colour is found without it, too.
      const words = this.words.get(Number(number)).split(" ");
      this.held.set(Number(number), new Set([...words, ...words.map((word) => word.split(":")[0])]));
    }
    if (solution.words) this.hasWords = true;
    solution.place = this.solutions.length;
    this.solutions.push(solution);
    if (solution.picture && get("title").textContent === "Solutions") this.name(solution);
    if (this.matches(solution)) this.found.push(solution.place);
  }

  takeChances(chances) {
    for (const element of chances.elements) this.elements.push(element);
    this.chances = chances;
    this.name(chances);
    this.refresh();
  }

  name(solution) {
    const title = this.titleOf(solution);
    if (!title) return;
    get("title").textContent = title[0].toUpperCase() + title.slice(1);
    document.title = get("title").textContent;
  }

  titleOf(solution) {
    const title = solution.picture.map((number) => this.elements[number]).find((element) => element[0] === "title");
    return title ? title[2] : "";
  }

  // ---- which are shown

  wanted() {
    const parts = get("filter").value.split("|").map((part) => part.split(" ").filter(Boolean));
    return parts.filter((words) => words.length);
  }

  matches(solution) {
    return this.wanted().every((words) =>
      solution.steps.some(([, option]) => option && words.every((word) => this.held.get(option).has(word))));
  }

  filter() {
    const now = this.found[this.at];
    this.found = this.solutions.filter((solution) => this.matches(solution)).map((solution) => solution.place);
    const next = this.found.findIndex((place) => place >= now);
    this.at = next < 0 ? Math.max(this.found.length - 1, 0) : next;
    this.offer();
    this.dropCards();
    this.refresh();
  }

  dropCards() {
    this.near.disconnect();
    this.cards = 0;
    get("cards").replaceChildren();
  }

  // Offers names that begin like the last word of the filter.
  offer() {
    const text = get("filter").value;
    const start = text.search(/[^ |]*$/);
    const begun = text.slice(start);
    const names = new Set();
    if (begun) {
      for (const words of this.held.values()) {
        for (const word of words) if (word.startsWith(begun)) names.add(word);
        if (names.size > MOST_NAMES) break;
      }
    }
    const offered = [...names].slice(0, MOST_NAMES).map((name) => text.slice(0, start) + name);
    get("names").replaceChildren(...offered.map((value) => made("option", { value })));
  }

  // Adds an item or an option to the filter, or takes it away.
  want(line) {
    const parts = get("filter").value.split("|").map((part) => part.trim()).filter(Boolean);
    const left = parts.filter((part) => part !== line);
    get("filter").value = (left.length === parts.length ? [...parts, line] : left).join(" | ");
    this.filter();
  }

  // ---- what is seen

  refresh() {
    const any = this.found.length > 0;
    this.isAll = get("all").getAttribute("aria-pressed") === "true";
    get("single").hidden = !this.chances && (!any || this.isAll);
    get("way").hidden = this.chances !== null;
    get("glance").hidden = !any || !this.isAll;
    get("bar").hidden = this.solutions.length === 0;
    get("bar").classList.toggle("few", this.solutions.length < 2);
    get("save").hidden = !any && !this.chances;
    get("save-solutions").disabled = !any;
    get("none").hidden = any || this.chances !== null;
    get("none").textContent = any ? "" : this.reason();
    if (any && this.isAll) this.showAll();
    else if (any) this.showOne();
    if (this.chances) this.showPicture(this.chances, true);
    this.refreshCount();
  }

  reason() {
    if (this.solutions.length) {
      const words = this.wanted().flat();
      const unknown = words.find((word) => ![...this.held.values()].some((held) => held.has(word)));
      return unknown ? `No option of these solutions has ${unknown}.` : "None of these solutions has that.";
    }
    if (!this.ended) return this.idle;
    const first = this.ended.complete ? "There is no solution." : "No solution was found.";
    return [first, ...this.ended.notes].join("\n");
  }

  refreshCount() {
    get("count").textContent = this.found.length.toLocaleString("en");
    get("place").value = this.found.length ? this.at + 1 : 0;
    get("back").disabled = this.at <= 0;
    get("on").disabled = this.at >= this.found.length - 1;
    get("save-picture").disabled = !(this.chances ?? this.solutions[this.found[this.at]])?.picture;
    get("summary").textContent = this.summary();
  }

  summary() {
    const all = this.solutions.length;
    if (this.chances) return `Of ${counted(BigInt(this.chances.total), "solution")}, in percent.`;
    if (!all) return "";
    const total = this.total ?? (this.ended ? this.ended.total : all);
    const parts = [counted(total, "solution")];
    if (!this.ended) parts.push("and it searches on");
    else if (all < total) parts.push(`${all.toLocaleString("en")} of them here`);
    if (this.ended?.complete || Number(this.total) === all) parts.push("all that there are");
    else if (this.ended && this.total === null) parts.push("there may be more");
    const wanted = this.wanted().map((words) => words.join(" ")).join(" and ");
    if (wanted) parts.push(`${this.found.length.toLocaleString("en")} with ${wanted}`);
    return [parts.join("; "), ...(this.ended ? this.ended.notes : [])].filter(Boolean).map(sentence).join(" ");
  }

  showOne() {
    const solution = this.solutions[this.found[this.at]];
    this.showPicture(solution, false);
    this.showSteps(solution);
  }

  // isPaper: whether it is in the colours that it has on paper.
  showPicture(solution, isPaper) {
    const picture = this.picture(solution);
    get("single").classList.toggle("plain", !picture);
    this.widen(Boolean(picture) && this.sizeOf(solution)[0] > WIDE);
    get("picture").replaceChildren(...(picture ? [shaded(picture, isPaper)] : []));
    if (picture) {
      const [wide, high] = this.sizeOf(solution);
      picture.style.width = `min(100%, ${2 * wide}px, ${Math.round((70 * wide) / high)}vh)`;
    }
  }

  // Folds the options where a wide picture comes, until they are opened.
  widen(isWide) {
    if (get("single").classList.contains("wide") === isWide) return;
    get("single").classList.toggle("wide", isWide);
    get("chosen").open = !isWide;
  }

  showSteps(solution) {
    const steps = solution.steps;
    const same = this.same(solution);
    const wanted = new Set(this.wanted().map((words) => words.join(" ")));
    const rows = steps.slice(0, MOST_STEPS).map((step, place) => this.row(step, place, same, wanted));
    const shown = this.folded(rows, steps);
    if (steps.length > MOST_STEPS) {
      shown.push(this.across(`and ${counted(steps.length - MOST_STEPS, "step")} more`));
    }
    get("steps").replaceChildren(...shown);
    const isKnown = steps.some(([, , , branches]) => branches);
    get("way").classList.toggle("unknown", !isKnown);
    get("went").textContent = isKnown ? "How the search went to it" : "Its options";
    get("items").textContent = isKnown && !this.hasWords ? "Items, from the one at which it chose" : "Items";
    const way = isKnown ? this.way(solution, same) : `${counted(steps.length, "option")}.`;
    get("caption").textContent = `Solution ${solution.number.toLocaleString("en")}: ${way}`;
  }

  // How many of its first steps are those of the solution before.
  same(solution) {
    const before = solution.place ? this.solutions[solution.place - 1] : null;
    if (!before || before.number !== solution.number - 1) return 0;
    const other = solution.steps.findIndex((step, place) => String(step) !== String(before.steps[place]));
    return other < 0 ? solution.steps.length : other;
  }

  // The rows of steps, with those that are forced one after another in a fold.
  folded(rows, steps) {
    const shown = [];
    for (let start = 0, end = 0; start < rows.length; start = end) {
      const isForced = (place) => steps[place][1] && steps[place][3] === 1;
      for (end = start; end < rows.length && isForced(end); ) end++;
      if (end - start >= FOLDED) shown.push(this.fold(rows.slice(start, end), start));
      else shown.push(...rows.slice(start, (end = Math.max(end, start + 1))));
    }
    return shown;
  }

  fold(rows, start) {
    const columns = ["step", "branch", "option"].map((className) => made("col", { className }));
    const table = made("table", {}, made("colgroup", {}, ...columns, made("col")), made("tbody", {}, ...rows));
    const name = `Steps ${start + 1} to ${start + rows.length}, each one forced`;
    const fold = made("details", {}, made("summary", { textContent: name }), table);
    fold.open = rows.some((row) => row.querySelector(".held"));
    return this.across(fold);
  }

  // A row of one cell.
  across(...within) {
    return made("tr", { className: "across" }, made("td", { colSpan: 4 }, ...within));
  }

  way(solution, same) {
    let before = 0;
    let share = 1;
    for (const [, , branch, branches] of solution.steps) {
      share /= branches || 1;
      before += (branch - 1) * share;
    }
    const choices = solution.steps.filter(([, , , branches]) => branches > 1).length;
    const chosen = choices ? `${counted(choices, "choice")} among branches` : "each one forced";
    const parts = [`${counted(solution.steps.length, "step")}, ${chosen}`];
    // Of less than a hundredth of a percent nothing is to be seen.
    if (before > 0.0001) {
      parts.push(`by its branches about ${(100 * before).toFixed(before < 0.1 ? 2 : 1)} % of the search lies before it`);
    }
    if (same) parts.push(`the first ${counted(same, "step")} as in solution ${solution.number - 1}`);
    return `${parts.join("; ")}.`;
  }

  row([item, option, branch, branches], place, same, wanted) {
    const row = made("tr", { className: place < same ? "same" : place === same && same ? "parting" : "" });
    row.append(made("td", { textContent: place + 1 }), this.branch(branch, branches));
    if (!option) {
      const textContent = this.hasWords ? "no further option" : `${item}: no further option`;
      row.append(made("td"), made("td", { className: "items forced", textContent }));
      return row;
    }
    const line = this.words.get(option);
    const number = this.button(`${option}`, line, "number", wanted.has(line), "only solutions with this option");
    const turned = this.turned(item, line);
    const items = made("td", { className: "items" });
    const title = "only solutions with this item";
    const buttons = turned.map((word) => this.button(word, word, "", wanted.has(word), title));
    // To say that one or two more are left out takes as much room as these.
    const most = buttons.length > MOST_WORDS + 2 ? MOST_WORDS : buttons.length;
    items.append(...buttons.slice(0, most).flatMap((each) => [each, " "]));
    if (most < buttons.length) items.append(this.rest(buttons.slice(most)));
    row.append(made("td", {}, number), items);
    return row;
  }

  // A button in the place of others, which come when it is pressed.
  rest(buttons) {
    const rest = made("button", { type: "button", className: "rest", textContent: `and ${buttons.length} more` });
    const open = () => {
      rest.replaceWith(...buttons.flatMap((each) => [each, " "]));
      buttons[0].focus();
    };
    rest.addEventListener("click", open);
    rest.classList.toggle("held", buttons.some((each) => each.classList.contains("held")));
    return rest;
  }

  button(text, line, className, isHeld, title) {
    const button = made("button", { type: "button", className, title, textContent: text });
    button.classList.toggle("held", isHeld);
    button.setAttribute("aria-pressed", isHeld);
    button.addEventListener("click", () => this.want(line));
    return button;
  }

  branch(branch, branches) {
    const mark = made("b");
    mark.style.left = `${(100 * (branch - 1)) / branches}%`;
    mark.style.width = `${100 / branches}%`;
    const className = branches > 1 ? "branch" : "branch forced";
    return made("td", { className }, made("i", { ariaHidden: "true" }, mark), `${branch} of ${branches}`);
  }

  showAll() {
    this.addCards();
    this.mark();
  }

  // A card for each solution that has none yet.
  addCards() {
    if (this.cards === 0 && this.found.length) {
      const first = this.solutions[this.found[0]];
      const wide = first.picture ? this.sizeOf(first)[0] : 400;
      get("cards").style.setProperty("--thumb", `${Math.min(Math.max(wide / 2, 130), 420)}px`);
    }
    const fresh = document.createDocumentFragment();
    for (; this.cards < this.found.length; this.cards++) fresh.append(this.card(this.cards));
    get("cards").append(fresh);
  }

  card(place) {
    const solution = this.solutions[this.found[place]];
    const name = made("span", { className: "name", textContent: solution.number.toLocaleString("en") });
    const card = made("button", { type: "button", className: "card" }, name);
    if (solution.picture) {
      const room = made("span", { className: "room" });
      room.style.aspectRatio = this.sizeOf(solution).join(" / ");
      card.append(room);
      this.near.observe(card);
    } else {
      const options = solution.steps.map(([, option]) => option).filter(Boolean).slice(0, MOST_LINES);
      card.append(made("pre", { textContent: options.map((option) => this.words.get(option)).join("\n") }));
    }
    card.dataset.place = solution.place;
    card.addEventListener("click", () => {
      this.at = place;
      this.see(false);
    });
    return card;
  }

  // Draws the pictures of cards that come near, and drops those of cards that go.
  fill(cards) {
    for (const { target, isIntersecting } of cards) {
      const room = target.querySelector(".room");
      if (!isIntersecting) room.replaceChildren();
      else if (!room.hasChildNodes()) room.append(shaded(this.picture(this.solutions[target.dataset.place])));
    }
  }

  mark() {
    const cards = get("cards").children;
    for (const card of get("cards").querySelectorAll("[aria-current]")) card.removeAttribute("aria-current");
    if (cards[this.at]) cards[this.at].setAttribute("aria-current", "true");
  }

  sizeOf(solution) {
    const { width, height } = this.elements[solution.picture[0]][1];
    return [Number(width) || 300, Number(height) || 300];
  }

  picture(solution) {
    if (!solution.picture) return null;
    const [whole, ...parts] = solution.picture.map((number) => this.elements[number]);
    const picture = this.drawn(whole);
    picture.setAttribute("role", "img");
    const number = solution.number ? `, solution ${solution.number}` : "";
    picture.setAttribute("aria-label", `${this.titleOf(solution)}${number}`);
    for (const part of parts) {
      const element = this.drawn(part);
      if (element) picture.append(element);
    }
    return picture;
  }

  drawn([name, attributes, within]) {
    if (!ELEMENTS.has(name)) return null;
    const element = document.createElementNS("http://www.w3.org/2000/svg", name);
    for (const [key, value] of Object.entries(attributes)) {
      if (ATTRIBUTES.has(key) && !String(value).includes("url")) element.setAttribute(key, value);
    }
    if (typeof within === "string") element.textContent = within;
    else element.append(...within.map((part) => this.drawn(part)).filter(Boolean));
    return element;
  }

  // ---- what is saved

  get slug() {
    return get("title").textContent.toLowerCase().replace(/[^a-z0-9]+/g, "-").replace(/^(an?-)|-$/g, "");
  }

  savePicture() {
    const solution = this.chances ?? this.solutions[this.found[this.at]];
    const picture = this.picture(solution);
    const title = document.createElementNS(picture.namespaceURI, "title");
    title.textContent = picture.getAttribute("aria-label");
    picture.prepend(title);
    const number = solution.number ? `-${solution.number}` : "";
    save(`${this.slug}${number}.svg`, "image/svg+xml", new XMLSerializer().serializeToString(picture));
  }

  // The solutions that are shown, as the programs list them.
  saveSolutions() {
    const lines = this.found.map((place) => this.solutions[place]).flatMap((solution) =>
      [`${solution.number}:`, ...solution.steps.map((step) => this.listed(step))]);
    save(`${this.slug}-solutions.txt`, "text/plain", lines.map((line) => `${line}\n`).join(""));
  }

  listed([item, option, branch, branches]) {
    const words = option ? this.turned(item, this.options.get(option)).join(" ") : `null ${item}`;
    return ` ${words}${branches ? ` (${branch} of ${branches})` : ""}`;
  }

  // The words of an option from an item on.
  turned(item, line) {
    const words = line.split(" ");
    const start = Math.max(words.indexOf(item), 0);
    return [...words.slice(start), ...words.slice(0, start)];
  }

  // ---- what people do

  go(place) {
    this.at = Math.min(Math.max(place, 0), Math.max(this.found.length - 1, 0));
    if (this.isAll) {
      this.mark();
      const card = get("cards").children[this.at];
      if (card) card.scrollIntoView({ block: "nearest" });
    } else if (this.found.length) {
      this.showOne();
    }
    this.refreshCount();
  }

  see(isAll) {
    get("all").setAttribute("aria-pressed", isAll);
    get("one").setAttribute("aria-pressed", !isAll);
    this.refresh();
    this.go(this.at);
  }

  bind() {
    get("back").addEventListener("click", () => this.go(this.at - 1));
    get("on").addEventListener("click", () => this.go(this.at + 1));
    get("one").addEventListener("click", () => this.see(false));
    get("all").addEventListener("click", () => this.see(true));
    get("place").addEventListener("change", () => this.go((parseInt(get("place").value, 10) || 1) - 1));
    get("place").addEventListener("focus", () => get("place").select());
    get("filter").addEventListener("input", () => this.filter());
    get("save-picture").addEventListener("click", () => this.savePicture());
    get("save-solutions").addEventListener("click", () => this.saveSolutions());
    get("help").addEventListener("click", () => get("keys").showModal());
    get("theme").addEventListener("click", turnTheme);
    addEventListener("keydown", (event) => this.press(event));
    // On paper all cards have their pictures, until it is printed.
    const drawn = () => [...get("cards").querySelectorAll(".room")].map((room) => room.parentElement);
    addEventListener("beforeprint", () => {
      if (!this.isAll) return;
      this.near.disconnect();
      this.near.takeRecords();
      this.fill(drawn().map((target) => ({ target, isIntersecting: true })));
    });
    addEventListener("afterprint", () => drawn().forEach((card) => this.near.observe(card)));
  }

  press(event) {
    const isTyped = event.target.closest("input, textarea, select");
    if (event.key === "Escape" && event.target === get("filter")) {
      get("filter").value = "";
      this.filter();
      get("filter").blur();
    }
    if (event.key === "Enter" && ["place", "filter"].includes(event.target.id)) event.target.blur();
    if (isTyped || event.ctrlKey || event.altKey || event.metaKey || get("keys").open) return;
    const isOnButton = event.target.closest("button, summary, a");
    const acts = {
      ArrowLeft: () => this.go(this.at - 1),
      ArrowRight: () => this.go(this.at + 1),
      k: () => this.go(this.at - 1),
      j: () => this.go(this.at + 1),
      Home: () => this.go(0),
      End: () => this.go(this.found.length - 1),
      g: () => this.see(!this.isAll),
      Enter: isOnButton ? null : () => this.see(false),
      "/": () => this.solutions.length && get("filter").focus(),
      p: () => (get("problem").open = !get("problem").open),
      d: turnTheme,
      "?": () => get("keys").showModal(),
    };
    if (!acts[event.key] || !Object.hasOwn(acts, event.key)) return;
    event.preventDefault();
    acts[event.key]();
  }
}

// ---- light and dark

// The colours of a picture on a dark page: lines and letters are light, and fills dark, each of its own hue and lighter
// where it was lighter. Where a fill is grey or black, white and black mean something: such a picture stays as it is.
const INK = /^#([0-9a-f]{3}|[0-9a-f]{6})$/i;
const WHITE = "#fff";

function channels(colour) {
  const digits = colour.length === 4 ? colour.replace(/[^#]/g, "$&$&") : colour;
  return [1, 3, 5].map((start) => parseInt(digits.slice(start, start + 2), 16) / 255);
}

const isGrey = (colour) => INK.test(colour) && Math.max(...channels(colour)) - Math.min(...channels(colour)) < 0.1;

function dimmed(colour) {
  if (!INK.test(colour)) return colour;
  const [red, green, blue] = channels(colour);
  const [most, least] = [Math.max(red, green, blue), Math.min(red, green, blue)];
  const light = (most + least) / 2;
  if (isGrey(colour)) return `hsl(0 0% ${Math.round(93 - 75 * light)}%)`;
  const part = (one, other) => (60 * (one - other)) / (most - least);
  const hue = most === red ? part(green, blue) : most === green ? 120 + part(blue, red) : 240 + part(red, green);
  return `hsl(${Math.round(hue)} 45% ${Math.round(36 * light)}%)`;
}

// A picture with both its colours, of which the style shows one; its ground is that of the page.
function shaded(picture, isPaper = false) {
  const fills = [...picture.querySelectorAll("rect")].filter((part) => part.getAttribute("fill") !== WHITE);
  picture.classList.toggle("paper", isPaper || fills.some((part) => isGrey(part.getAttribute("fill") ?? "")));
  for (const part of picture.querySelectorAll("[fill], [stroke]")) {
    for (const name of ["fill", "stroke"]) {
      if (part.hasAttribute(name)) part.style.setProperty(`--${name}`, dimmed(part.getAttribute(name)));
    }
  }
  const ground = picture.querySelector("rect");
  const isAll = ground && ["width", "height"].every((side) => ground.getAttribute(side) === picture.getAttribute(side));
  if (isAll && ground.getAttribute("fill") === WHITE) ground.classList.add("ground");
  return picture;
}

const isSystemDark = matchMedia("(prefers-color-scheme: dark)");

function kept(value) {
  try {
    if (value) localStorage.setItem("helgrothy-theme", value);
    return localStorage.getItem("helgrothy-theme");
  } catch {
    return null;
  }
}

function isDark() {
  const chosen = document.documentElement.dataset.theme;
  return chosen ? chosen === "dark" : isSystemDark.matches;
}

function turnTheme() {
  document.documentElement.dataset.theme = isDark() ? "light" : "dark";
  kept(document.documentElement.dataset.theme);
  nameTheme();
}

function nameTheme() {
  get("theme").textContent = isDark() ? "Light" : "Dark";
}

if (["dark", "light"].includes(kept())) document.documentElement.dataset.theme = kept();
isSystemDark.addEventListener("change", nameTheme);
nameTheme();
