// What is typed: it is kept by the browser for this page's address, and comes from files and goes to files.

const KEPT = "helgrothy-typed";
const MOST_READ = 1 << 20;

class Typed {
  // kept: values of before, or else those that the browser has. Another page may have written them: each is looked at.
  constructor(kept = read()) {
    this.kept = kept;
  }

  // A value of a field, or else another one.
  value(otherwise, ...path) {
    const within = (held, name) => (held && typeof held === "object" && Object.hasOwn(held, name) ? held[name] : null);
    const value = path.reduce(within, this.kept);
    return typeof value === typeof otherwise ? value : otherwise;
  }

  // Keeps what stands in the page. Returns whether the browser does that.
  keep(values) {
    try {
      localStorage.setItem(KEPT, JSON.stringify(values));
      return true;
    } catch {
      return false;
    }
  }
}

function read() {
  try {
    return JSON.parse(localStorage.getItem(KEPT));
  } catch {
    return null;
  }
}

// The text of a file that was chosen. Throws where it can't be one of a problem.
async function readFile(file) {
  if (file.size > MOST_READ) throw new Error(`${file.name} has more than 1 MB, which is too much for this page`);
  return (await file.text()).replace(/\r\n?/g, "\n");
}
