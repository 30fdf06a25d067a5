// A file: all that there is to be shown stands in it.
const viewer = new Viewer();
viewer.take(JSON.parse(get("data").textContent));
