// Runs the scripts of pages of waveforms without a browser, and prints what they show. Each line of
// standard input is JSON: the path of a page, a width in pixels, some times and, if not all of the
// time is shown, a view, each counted from the begin of the page. Each line of output is JSON too:
// of each signal and form the values at these times, and the shapes of its row, each a kind, and
// where it begins and ends; or `error`.
"use strict";
const anyOf = () => [][Symbol.iterator]();
let text = "";  // the data of the page

// An object that has every property and is every function; none does anything.
const anything = new Proxy(function () {}, {
  get: (_, key) => key === Symbol.toPrimitive ? () => 0 : key === Symbol.iterator ? anyOf
    : anything,
  set: () => true, has: () => true, apply: () => anything, construct: () => anything });
const element = new Proxy({}, {
  get: (_, key) => key === "textContent" ? text : key === "measureText" ? () => ({ width: 70 })
    : key === "children" ? { length: 1e9, [Symbol.iterator]: anyOf }
      : key === "clientWidth" || key === "clientHeight" || key === "scrollTop" ? 1000
        : key === "getContext" ? () => anything : anything[key],
  set: () => true });
const page = new Proxy({}, { get: (_, key) => key === "getElementById" ? () => element : anything,
  set: () => true });

// A path that keeps its shapes.
class Shapes {
  constructor() { this.all = []; }
  rect(x, _y, wide) { this.all.push([x, x + wide]); }
  moveTo(x, y) { this.at = [x, y]; }
  lineTo(x, y) {
    this.all.push([Math.min(x, this.at[0]), Math.max(x, this.at[0]), this.at[1], y]);
    this.at = [x, y];
  }
}

// What the script of a page sees of a browser.
const seen = { document: page, Path2D: Shapes, requestAnimationFrame: () => 0,
  getComputedStyle: () => anything, matchMedia: () => ({ matches: false }), location: { hash: "" },
  Option: anything, addEventListener: () => 0, devicePixelRatio: 1, onresize: null,
  onhashchange: null };
const asked = `
  width = asked.width;
  [now.from, now.to] = asked.view || [0, SPAN];
  return signals.map(row => {
    const values = {};
    for (const form of RADICES) {
      row.radix = form;
      values[form] = asked.times.map(time => valueAt(row, time));
    }
    paths = {}; labels = [];
    drawRow(row, 0);
    const shapes = Object.entries(paths).map(([kind, its]) => [kind, its.all]);
    return { path: row.path, side: row.side, values, shapes };
  });`;

function shownBy([path, width, times, view]) {
  const whole = require("fs").readFileSync(path, "utf8");
  text = whole.match(/<script id="data" type="application\/json">(.*?)<\/script>/s)[1];
  const script = whole.slice(whole.indexOf('"use strict";'), whole.lastIndexOf("</script>"));
  const run = new Function(...Object.keys(seen), "asked", script + asked);
  return run(...Object.values(seen), { width, times, view });
}

require("readline").createInterface({ input: process.stdin }).on("line", line => {
  let found;
  try {
    found = shownBy(JSON.parse(line));
  } catch (error) {
    found = { error: error.stack };
  }
  console.log(JSON.stringify(found));
});
