// A kind, and a field for each of its arguments and options.

const MOST_ROWS = 12;

class Kinds {
  constructor(kinds) {
    this.kinds = new Map(kinds.map((kind) => [kind.name, kind]));
    this.typed = new Map();
    get("kind").append(...kinds.map(({ name, title }) => made("option", { value: name, textContent: title })));
  }

  get name() {
    return get("kind").value;
  }

  // The values of a kind's fields, by what gives a value for a name or else for none.
  fill(name, value) {
    const values = {};
    for (const field of this.kinds.get(name).fields) values[field.name] = value(field.name, field.is_flag ? false : "");
    this.typed.set(name, values);
  }

  choose(name) {
    if (this.kinds.has(name)) get("kind").value = name;
  }

  show() {
    const kind = this.kinds.get(this.name);
    get("about").textContent = `${kind.help}.`;
    get("values").replaceChildren(...kind.fields.flatMap((field) => this.field(field, this.typed.get(kind.name))));
    // How wide a text is counts as soon as it is there.
    for (const input of get("values").querySelectorAll("textarea")) suit(input);
  }

  field(field, values) {
    const id = `value-${field.name}`;
    const help = made("small", { id: `help-${field.name}`, textContent: field.help });
    const input = made(field.is_flag ? "input" : "textarea", { id });
    if (field.help) input.setAttribute("aria-describedby", help.id);
    if (field.is_flag) return [made("label", { className: "flag" }, this.box(input, field, values), field.label), help];
    Object.assign(input, { rows: 1, wrap: "off", value: values[field.name] });
    Object.assign(input, { spellcheck: false, autocomplete: "off", autocapitalize: "off" });
    input.addEventListener("input", () => {
      values[field.name] = input.value;
      suit(input);
    });
    return [made("label", { htmlFor: id, textContent: field.label }), input, help];
  }

  // A box that is ticked where what stands beside it holds.
  box(input, field, values) {
    Object.assign(input, { type: "checkbox", checked: values[field.name] !== field.forbids });
    input.addEventListener("input", () => (values[field.name] = input.checked !== field.forbids));
    return input;
  }

  request() {
    return { kind: this.name, values: this.typed.get(this.name) };
  }
}

// As many rows as a text has lines, and one for the bar below lines that are too wide.
function suit(input) {
  const bar = input.scrollWidth > input.clientWidth ? 1 : 0;
  input.rows = Math.min(input.value.split("\n").length, MOST_ROWS) + bar;
}
