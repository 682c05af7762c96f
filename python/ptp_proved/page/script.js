"use strict";
/* The page's views over its data (ptp_proved/page/timeline.py names the parts of a row). Whatever the camera said goes in as text alone. */
(() => {
  const data = JSON.parse(document.getElementById("data").textContent);
  const rows = data.rows;
  const BATCH = 120;
  const HEADER = new Set(["Kind", "Code", "TransactionID"]);
  const by = (id) => document.getElementById(id);

  /* An element with attributes and children; a string among the children is text. */
  function make(tag, attributes, ...children) {
    const element = document.createElement(tag);
    for (const [name, value] of Object.entries(attributes || {})) element.setAttribute(name, value);
    element.append(...children.filter((child) => child !== null && child !== undefined));
    return element;
  }

  const grouped = (number) => number.toLocaleString("en");

  /* Draws a list batch by batch: the first at once, each other when its end is near the window, and all of them before printing. */
  class Drawn {
    constructor(box, line) {
      this.box = box;
      this.line = line;
      this.end = make("div", { "aria-hidden": "true" });
      this.watch = new IntersectionObserver((seen) => { if (seen[0].isIntersecting) this.more(); }, { rootMargin: "800px" });
      window.addEventListener("beforeprint", () => this.more(this.items.length));
      this.items = [];
    }

    show(items) {
      this.items = items;
      this.count = 0;
      this.box.replaceChildren();
      this.more();
    }

    /* A batch more, or as many as are told. */
    more(least) {
      const last = Math.min(this.items.length, Math.max(this.count + BATCH, least || 0));
      this.box.append(...this.items.slice(this.count, last).map(this.line));
      this.count = last;
      this.watch.unobserve(this.end);
      if (last < this.items.length) this.watch.observe(this.end);
    }
  }

  // ---- the head

  function showHead() {
    by("name").textContent = data.name;
    const camera = data.camera;
    by("camera").textContent = camera ? `${camera.Manufacturer} ${camera.Model}, version ${camera.DeviceVersion}, serial ${camera.SerialNumber}` : "";
    const totals = data.totals;
    const shown = [["transactions", totals.transactions], ["refused", totals.not_ok + totals.unanswered, "bad"], ["events", totals.events],
      ["notes", totals.notes], ["records", totals.records], ["bytes", totals.bytes]];
    for (const [name, number, kind] of shown)
      by("totals").append(make("div", kind && number ? { class: kind } : {}, make("dt", {}, name), make("dd", {}, grouped(number))));
    const refusal = rows.find((row) => row.k === "refusal");
    const sentences = [];
    if (refusal) sentences.push(`The reading ends at ${grouped(refusal.p)}: ${refusal.s}.`);
    if (!data.layout && data.properties.length) sentences.push("Property descriptions are shown as bytes: no layout was named when the page was made.");
    by("warning").textContent = sentences.join(" ");
    by("warning").hidden = sentences.length === 0;
  }

  // ---- which rows are shown

  let texts = null; // what a search looks through, made at the first one
  const timeline = new Drawn(by("rows"), entry);

  function searched(row) {
    const fields = row.g.flatMap((group) => group.f.map((field) => `${field[0]} ${field[1]}`));
    return [row.w, row.c, row.s, row.r ? row.r[0] : "", row.p, ...row.m, ...fields].join(" ").toLowerCase();
  }

  function fitsWord(at, word) {
    if (word.startsWith("#")) return String(rows[at].n) === word.slice(1);
    return texts[at].includes(word);
  }

  function wanted(at, words) {
    const row = rows[at];
    if (by("refused").checked && !(row.r && row.r[1])) return false;
    if (by("by-command").value && row.w !== by("by-command").value) return false;
    if (by("by-property").value && String(row.x) !== by("by-property").value) return false;
    return words.every((word) => fitsWord(at, word));
  }

  function filter() {
    const words = by("search").value.toLowerCase().split(/\s+/).filter(Boolean);
    if (words.length && !texts) texts = rows.map(searched);
    const shown = [...rows.keys()].filter((at) => wanted(at, words));
    timeline.show(shown);
    by("none").hidden = shown.length > 0;
    by("count").textContent = shown.length === rows.length ? `${grouped(rows.length)} entries` : `${grouped(shown.length)} of ${grouped(rows.length)} entries`;
  }

  // ---- the timeline

  function entry(at) {
    const row = rows[at];
    const badge = row.r ? make("span", { class: row.r[1] ? "badge bad" : "badge" }, row.r[0]) : make("span", {});
    const head = make("button", { class: "head", type: "button", "aria-expanded": "false" },
      make("span", { class: "place", title: "place in the recording" }, grouped(row.p)), make("span", { class: "word" }, row.w),
      make("span", { class: "number", title: "transaction number" }, row.n === null ? "" : `#${row.n}`), make("span", { class: "about" }, row.s), badge);
    const item = make("li", { class: `entry ${row.k}`, "data-at": at }, head);
    head.addEventListener("click", () => unfold(item, head.getAttribute("aria-expanded") === "false"));
    return item;
  }

  function unfold(item, isOpen) {
    item.classList.toggle("open", isOpen);
    item.firstChild.setAttribute("aria-expanded", String(isOpen));
    if (isOpen && item.children.length === 1) item.append(body(rows[Number(item.dataset.at)]));
    if (item.children[1]) item.children[1].hidden = !isOpen;
  }

  function body(row) {
    const made = make("div", { class: "body" }, ...row.g.map(record));
    if (row.m.length) made.append(make("ul", { class: "said" }, ...row.m.map((sentence) => make("li", {}, sentence))));
    if (!made.children.length) made.append(make("p", { class: "none" }, "There is nothing more to say of it."));
    return made;
  }

  // ---- a record: its fields beside its bytes, each of which marks the other

  function record(group) {
    const bytes = Uint8Array.from(atob(group.b), (letter) => letter.charCodeAt(0));
    const dump = hexDump(group, bytes);
    const table = make("table", { class: "fields" });
    const lines = group.f.map((field) => fieldLine(field, group, dump));
    table.append(make("tbody", {}, ...lines));
    dump.point(lines, group.f);
    const cut = bytes.length < group.l ? `, the first ${grouped(bytes.length)} here` : "";
    return make("div", { class: "record" }, make("h3", {}, `${group.t} · at ${grouped(group.p)}, ${grouped(group.l)} bytes${cut}`),
      make("div", { class: "pair" }, group.f.length ? table : make("span", {}), dump.element));
  }

  function fieldLine(field, group, dump) {
    const [name, text, place, length] = field;
    const line = make("tr", { tabindex: "0", title: `${length} bytes at ${place}`, class: HEADER.has(name) ? "own" : "" }, make("th", { scope: "row" }, name), make("td", {}, text));
    const mark = (isOn) => { line.classList.toggle("on", isOn); dump.mark(place - group.p, length, isOn); };
    for (const name of ["mouseenter", "focus"]) line.addEventListener(name, () => mark(true));
    for (const name of ["mouseleave", "blur"]) line.addEventListener(name, () => mark(false));
    return line;
  }

  function hexDump(group, bytes) {
    const width = window.matchMedia("(max-width: 640px)").matches ? 8 : 16;
    const hexes = [], letters = [], element = make("div", { class: "bytes", role: "img", "aria-label": "its bytes in hexadecimal digits" });
    for (let start = 0; start < bytes.length; start += width) {
      const hex = make("span", { class: "hex" }), letter = make("span", { class: "letters" });
      for (let at = start; at < Math.min(start + width, bytes.length); at++) {
        hexes.push(make("i", { "data-byte": at }, bytes[at].toString(16).padStart(2, "0")));
        letters.push(make("i", {}, bytes[at] > 31 && bytes[at] < 127 ? String.fromCharCode(bytes[at]) : "·"));
        hex.append(hexes[at]);
        letter.append(letters[at]);
      }
      for (let at = bytes.length; at < start + width; at++) hex.append(make("i", {}, "  "));
      element.append(make("div", { class: "line" }, make("span", { class: "at" }, String(group.p + start)), hex, letter));
    }
    function mark(start, length, isOn) {
      for (let at = start; at < Math.min(start + length, bytes.length); at++) {
        hexes[at].classList.toggle("on", isOn);
        letters[at].classList.toggle("on", isOn);
      }
      if (isOn && hexes[start] && length) within(element, hexes[start].parentNode.parentNode);
    }
    /* A byte that is pointed at marks its field. */
    function point(lines, fields) {
      let last = null;
      element.addEventListener("mouseover", (event) => {
        const at = event.target.dataset && event.target.dataset.byte;
        const place = at === undefined ? -1 : Number(at) + group.p;
        const found = fields.findIndex((field) => place >= field[2] && place < field[2] + field[3]);
        if (last !== null) lines[last].dispatchEvent(new Event("mouseleave"));
        last = found < 0 ? null : found;
        if (last !== null) lines[last].dispatchEvent(new Event("mouseenter"));
      });
      element.addEventListener("mouseleave", () => { if (last !== null) lines[last].dispatchEvent(new Event("mouseleave")); last = null; });
    }
    return { element, mark, point };
  }

  /* Scrolls a box so that a line of it is seen, without moving the page. */
  function within(box, line) {
    if (line.offsetTop < box.offsetTop + box.scrollTop || line.offsetTop + line.offsetHeight > box.offsetTop + box.scrollTop + box.clientHeight)
      box.scrollTop = line.offsetTop - box.offsetTop - box.clientHeight / 3;
  }

  /* To the entry at a place, from another view. */
  function goTo(place) {
    const at = rows.findIndex((row) => row.p === place && row.k !== "dropped");
    if (at < 0) return;
    by("tools").reset();
    filter();
    select("timeline");
    timeline.more(at + 1);
    const item = by("rows").children[at];
    unfold(item, true);
    item.scrollIntoView({ block: "start" });
    item.firstChild.focus({ preventScroll: true });
  }

  function link(place) {
    const made = make("button", { class: "go", type: "button", title: "show it in the timeline" }, grouped(place));
    made.addEventListener("click", () => goTo(place));
    return made;
  }

  // ---- properties

  const COUNTS = new Set(["bytes", "pixels", "captured", "modified"]);

  function cell(title, kind, ...children) {
    return make("td", { class: kind, "data-title": title }, ...children);
  }

  function head(...names) {
    return make("thead", {}, make("tr", {}, ...names.map((name) => make("th", COUNTS.has(name) ? { scope: "col", class: "count" } : { scope: "col" }, name))));
  }

  function timesTable(times) {
    const lines = times.map(([place, doing, text, answer, isOutside]) => make("tr", isOutside ? { class: "outside" } : {},
      cell("at", "", link(place)), cell("", "", doing), cell("", "value", text),
      cell("", "", answer ? make("span", { class: answer === "Ok" ? "badge" : "badge bad" }, answer) : "")));
    return make("table", { class: "table times" }, head("at", "what", "value", "answer"), make("tbody", {}, ...lines));
  }

  function drawProperties() {
    const cards = data.properties.map((one) => make("article", { class: "card" },
      make("h2", {}, one.w || "a property of the maker's", make("code", {}, one.c)),
      one.t ? make("p", {}, one.t) : null, one.f ? make("p", {}, "May be ", make("b", {}, one.f)) : null, timesTable(one.h),
      one.n > one.h.length ? make("p", {}, `The first ${grouped(one.h.length)} of ${grouped(one.n)} times.`) : null));
    by("properties").append(...(cards.length ? cards : [make("p", { class: "none" }, "No property was described, set or read.")]));
  }

  // ---- objects

  function dated(text) {
    const found = /^"(\d{4})(\d\d)(\d\d)T(\d\d)(\d\d)(\d\d)(.*)"$/.exec(text);
    return found ? `${found[1]}-${found[2]}-${found[3]} ${found[4]}:${found[5]}:${found[6]}${found[7]}` : text.replace(/^"(.*)"$/, "$1");
  }

  function objectLine(one) {
    const field = Object.fromEntries(data.objects.f.map((name, at) => [name, one.t[at]]));
    const isFolder = field.ObjectFormat.startsWith("0x3001");
    const kinds = [isFolder ? "folder" : "", one.x === null ? "" : "deleted"].join(" ").trim();
    const name = cell("", "name", make("span", {}, one.w || "(no name)"));
    name.style.setProperty("--depth", one.d);
    const size = isFolder ? "" : grouped(Number(field.ObjectCompressedSize));
    const pixels = field.ImagePixWidth === "0" ? "" : `${field.ImagePixWidth} × ${field.ImagePixHeight}`;
    return make("tr", kinds ? { class: kinds } : {}, name, cell("format", "", field.ObjectFormat.replace(/^0x\w+ /, "")),
      cell("bytes", "count", size), cell("pixels", "count", pixels), cell("captured", "count", dated(field.CaptureDate)),
      cell("modified", "count", dated(field.ModificationDate)), cell("handle", "value", one.h), cell("at", "", ...one.p.map(link)),
      cell("deleted at", "", one.x === null ? null : link(one.x)));
  }

  function objectTable(list) {
    const names = ["name", "format", "bytes", "pixels", "captured", "modified", "handle", "described at"];
    const body = make("tbody", {}), drawn = new Drawn(body, objectLine);
    drawn.show(list);
    const table = make("table", { class: "table" }, head(...names, ...(list.some((one) => one.x !== null) ? ["deleted at"] : [])), body);
    return make("div", { class: "card" }, table, drawn.end);
  }

  function drawObjects() {
    const { v: view, m: more } = data.objects;
    if (!view.length) by("objects").append(make("p", { class: "none" }, "No object was described."));
    else by("objects").append(objectTable(view));
    if (more.length) by("objects").append(make("h2", {}, `${grouped(more.length)} more, for which the folder view has no room`), objectTable(more));
  }

  // ---- views and keys

  const views = { timeline: null, properties: drawProperties, objects: drawObjects };

  function select(name) {
    for (const view of Object.keys(views)) {
      const tab = by(`tab-${view}`);
      tab.setAttribute("aria-selected", String(view === name));
      tab.tabIndex = view === name ? 0 : -1;
      by(view).hidden = view !== name;
    }
    by("tools").hidden = name !== "timeline";
    if (views[name]) { views[name](); views[name] = null; }
    window.scrollTo(0, 0);
  }

  function tabKeys(event) {
    const names = Object.keys(views), step = { ArrowRight: 1, ArrowLeft: -1 }[event.key];
    if (!step) return;
    const at = names.findIndex((name) => by(`tab-${name}`) === event.target);
    const next = names[(at + step + names.length) % names.length];
    select(next);
    by(`tab-${next}`).focus();
    event.preventDefault();
  }

  function rowKeys(event) {
    if (!event.target.classList.contains("head")) return;
    const item = event.target.parentNode;
    if (event.key === "ArrowRight" || event.key === "ArrowLeft") { unfold(item, event.key === "ArrowRight"); event.preventDefault(); return; }
    if (event.key === "ArrowDown" && !item.nextSibling) timeline.more();
    const next = { ArrowDown: item.nextSibling, ArrowUp: item.previousSibling, Home: by("rows").firstChild }[event.key];
    if (!next) return;
    next.firstChild.focus();
    event.preventDefault();
  }

  function pageKeys(event) {
    const isTyping = /^(INPUT|SELECT|TEXTAREA)$/.test(event.target.tagName);
    if (event.key === "/" && !isTyping) { select("timeline"); by("search").focus(); event.preventDefault(); }
    if (event.key === "Escape" && event.target === by("search")) { by("search").value = ""; filter(); }
    if (event.key === "ArrowDown" && event.target === by("search") && by("rows").firstChild) { by("rows").firstChild.firstChild.focus(); event.preventDefault(); }
  }

  function options(element, every, pairs) {
    element.append(make("option", { value: "" }, every), ...pairs.map(([value, text]) => make("option", { value }, text)));
  }

  function fillFilters() {
    const counts = new Map();
    for (const row of rows) if (row.k === "transaction") counts.set(row.w, (counts.get(row.w) || 0) + 1);
    options(by("by-command"), "Every command", [...counts].sort((one, other) => (one[0] < other[0] ? -1 : 1)).map(([word, count]) => [word, `${word} (${grouped(count)})`]));
    options(by("by-property"), "Every property", data.properties.map((one) => [one.x, `${one.w || one.c} (${grouped(one.n)})`]));
  }

  let waiting = 0;
  by("search").addEventListener("input", () => { clearTimeout(waiting); waiting = setTimeout(filter, 90); });
  for (const id of ["by-command", "by-property", "refused"]) by(id).addEventListener("change", filter);
  by("tools").addEventListener("submit", (event) => { event.preventDefault(); filter(); });
  for (const name of Object.keys(views)) by(`tab-${name}`).addEventListener("click", () => select(name));
  document.querySelector(".tabs").addEventListener("keydown", tabKeys);
  by("rows").addEventListener("keydown", rowKeys);
  document.addEventListener("keydown", pageKeys);
  by("timeline").append(timeline.end);

  showHead();
  fillFilters();
  filter();
  document.documentElement.dataset.ready = String(Math.round(performance.now()));
})();
