"use strict";
// Draws what is chosen in the tree: its facts, and its fields beside its octets. All texts are set as text, and none as HTML.
(() => {
  const { nodes, octets: letters, texts, base } = JSON.parse(document.getElementById("data").textContent);
  const octets = bytesOf(atob(letters)); // in a loop: Uint8Array.from takes a second for some megabytes
  const [NAME, SIZE, SAID, PARTS, TONE, LINK] = [0, 1, 2, 3, 4, 5];
  const PIECE = 256; // lines of octets that are drawn at once
  const text = (number) => (number === undefined ? "" : texts[number]);
  const counted = (count, thing) => `${count.toLocaleString("en")} ${thing}${count === 1 ? "" : "s"}`;
  const hex = (bytes) => Array.from(bytes, (it) => it.toString(16).padStart(2, "0")).join(" ");

  function bytesOf(chars) {
    const made = new Uint8Array(chars.length);
    for (let at = 0; at < chars.length; at++) made[at] = chars.charCodeAt(at);
    return made;
  }

  /** Sets a text, in which what can't be shown stands between U+0001 and U+0002. */
  function say(element, said) {
    for (const [at, part] of said.split(/[\u0001\u0002]/).entries()) {
      element.append(at % 2 ? make("span", "odd", part) : part);
    }
    return element;
  }

  function make(tag, kind, ...inside) {
    const made = document.createElement(tag);
    made.className = kind;
    made.append(...inside);
    return made;
  }

  function link(number, said) {
    const made = say(make("a", ""), said);
    made.href = `#${nodes[number].id}`;
    return made;
  }

  /** The fields that a field has inside: its own, or those of another node. */
  function parts(field) {
    const found = field[PARTS] || [];
    return typeof found[0] === "number" ? nodes[found[0]].fields.slice(found[1], found[2]) : found;
  }

  // ---- Items that the arrow keys reach, of which Tab reaches one

  class Items {
    constructor(root, chosen) {
      [this.root, this.chosen] = [root, chosen];
      root.addEventListener("click", (it) => this.click(it));
      root.addEventListener("keydown", (it) => this.key(it));
      this.stop(root.querySelector("li"));
    }

    /** Makes an item the one that Tab reaches. */
    stop(item) {
      this.root.querySelector('li[tabindex="0"]')?.setAttribute("tabindex", "-1");
      item?.setAttribute("tabindex", "0");
    }

    visible() {
      return Array.from(this.root.querySelectorAll("li")).filter((it) => !it.closest("[hidden]") && !it.parentElement.closest('[aria-expanded="false"]'));
    }

    open(item, opened) {
      if (item.hasAttribute("aria-expanded")) item.setAttribute("aria-expanded", String(opened));
    }

    focus(item, how) {
      this.stop(item);
      item.focus({ preventScroll: true });
      item.querySelector(".row").scrollIntoView({ block: "nearest" });
      this.chosen(item, how);
    }

    click(event) {
      const item = event.target.closest("li");
      if (!item || event.target.closest("a")) return;
      const row = item.querySelector(".row");
      const isOpen = item.getAttribute("aria-expanded") === "true";
      const onMark = event.clientX - row.getBoundingClientRect().left < 20;
      if (onMark || item.getAttribute("aria-selected") === "true") this.open(item, !isOpen);
      else if (!isOpen) this.open(item, true);
      this.stop(item);
      item.focus({ preventScroll: true });
      if (!onMark) this.chosen(item, "click");
    }

    key(event) {
      const item = event.target.closest("li");
      if (!item || event.target.closest("a") || event.altKey || event.ctrlKey || event.metaKey) return;
      const all = this.visible();
      const at = all.indexOf(item);
      const opened = item.getAttribute("aria-expanded");
      const to = { ArrowDown: all[at + 1], ArrowUp: all[at - 1], Home: all[0], End: all[all.length - 1] }[event.key];
      if (to) this.focus(to, "arrow");
      else if (event.key === "ArrowRight" && opened === "false") this.open(item, true);
      else if (event.key === "ArrowRight" && opened === "true") this.focus(all[at + 1], "arrow");
      else if (event.key === "ArrowLeft" && opened === "true") this.open(item, false);
      else if (event.key === "ArrowLeft" && item.parentElement.closest("li")) this.focus(item.parentElement.closest("li"), "arrow");
      else if (event.key === "Enter" || event.key === " ") this.chosen(item, "enter");
      else if (!event.key.startsWith("Arrow")) return;
      event.preventDefault();
    }
  }

  // ---- Fields beside their octets

  class View {
    constructor(bytes, fields, begin = 0) {
      [this.bytes, this.begin, this.leaves, this.pinned, this.lit] = [bytes, begin, [], null, []];
      this.list = make("ul", "fields");
      this.list.setAttribute("role", "tree");
      this.list.setAttribute("aria-label", "Fields");
      this.items = [];
      let at = 0;
      fields.forEach((it, number) => (at = this.field(it, at, this.list, [], number % 6, false)));
      this.readout = make("p", "readout");
      this.readout.setAttribute("aria-live", "polite");
      this.hex = make("div", "hex");
      this.hex.tabIndex = 0;
      this.hex.setAttribute("role", "group");
      this.hex.setAttribute("aria-label", "Octets: the arrow keys go from field to field");
      this.element = make("div", "view", this.list, make("div", "side", this.readout, this.hex));
      this.events();
    }

    /** Adds a field and what it has inside to the list; returns where it ends. */
    field(it, at, into, path, hue, isOther) {
      const [inside, item, here] = [parts(it), make("li", ""), [...path, text(it[NAME])]];
      const tone = it[TONE] || "";
      const color = tone.includes("b") && tone.length === 1 ? "wrong" : `h${hue}${isOther ? " alt" : ""}`;
      const found = { begin: at, end: at + it[SIZE], path: here, said: text(it[SAID]), item, color };
      item.setAttribute("role", "treeitem");
      item.tabIndex = -1;
      item.dataset.item = this.items.push(found) - 1;
      item.append(this.row(it, at, tone, color));
      into.append(item);
      if (inside.length) {
        item.setAttribute("aria-expanded", String(!tone.includes("o")));
        const group = make("ul", "");
        group.setAttribute("role", "group");
        item.append(group);
        let next = at;
        inside.forEach((part, number) => (next = this.field(part, next, group, here, hue, number % 2 === 1)));
      } else if (it[SIZE]) {
        this.leaves.push(found);
      }
      return at + it[SIZE];
    }

    row(it, at, tone, color) {
      const name = say(make("span", "name"), text(it[NAME]));
      if (tone.includes("c")) name.append(make("span", "critical", "critical"));
      const said = make("bdi", tone.includes("m") ? "said m" : "said");
      if (it[LINK] !== undefined) said.append(link(it[LINK], text(it[SAID]) || "show"));
      else if (text(it[SAID])) say(said, text(it[SAID]));
      else if (!(it[PARTS] || []).length) {
        said.classList.add("raw");
        said.append(hex(this.bytes.subarray(at, at + Math.min(it[SIZE], 8))), it[SIZE] > 8 ? ` … ${counted(it[SIZE], "octet")}` : "");
      } else said.append(counted(it[SIZE], "octet"));
      return make("div", "row", make("span", `chip ${color}`), name, said);
    }

    draw() {
      const width = this.hex.parentElement.parentElement.clientWidth || window.innerWidth;
      this.columns = window.innerWidth > 760 && width > 620 ? 16 : 8;
      this.hex.replaceChildren();
      this.runs = this.leaves.map(() => []);
      this.drawn = this.leaf = 0;
      this.drawMore();
      this.tell(this.pinned);
    }

    /** Draws the next lines, and how many are left. */
    drawMore() {
      this.hex.querySelector(".more")?.remove();
      const end = Math.min(this.bytes.length, this.drawn + PIECE * this.columns);
      for (let at = this.drawn; at < end; at += this.columns) this.hex.append(this.line(at, Math.min(at + this.columns, this.bytes.length)));
      this.drawn = end;
      if (end < this.bytes.length) {
        const more = make("button", "more", `Show more of the ${counted(this.bytes.length - end, "octet")} that follow`);
        more.addEventListener("click", () => this.drawMore());
        this.hex.append(more);
      }
    }

    /** A line of octets, with a span for each field in it. */
    line(begin, end) {
      const [codes, chars] = [make("span", "codes"), make("span", "txt")];
      for (let at = begin; at < end; ) {
        while (this.leaves[this.leaf].end <= at) this.leaf++;
        const leaf = this.leaves[this.leaf];
        const to = Math.min(leaf.end, end);
        let [said, shown] = ["", ""];
        for (let each = at; each < to; each++) {
          const gap = each > begin ? (each - begin === 8 ? "  " : " ") : "";
          if (each === at && gap) codes.append(gap);
          said += (each > at ? gap : "") + this.bytes[each].toString(16).padStart(2, "0");
          shown += this.bytes[each] > 32 && this.bytes[each] < 127 ? String.fromCharCode(this.bytes[each]) : "·";
        }
        for (const [into, it] of [[codes, said], [chars, shown]]) {
          const run = make("span", `run ${leaf.color}`, it);
          run.dataset.leaf = this.leaf;
          this.runs[this.leaf].push(run);
          into.append(run);
        }
        at = to;
      }
      const missing = this.columns - (end - begin);
      if (missing && begin) codes.append(" ".repeat(3 * missing + (this.columns === 16 && end - begin <= 8 ? 1 : 0)));
      const width = String(this.begin + this.bytes.length).length;
      return make("div", "line", make("span", "at", String(this.begin + begin).padStart(width)), codes, chars);
    }

    /** Lights the octets of a field, and it or what is around it in the list. */
    tell(found) {
      this.lit.forEach((it) => it.classList.remove("on"));
      this.lit = [];
      this.readout.replaceChildren();
      if (!found) {
        this.readout.append(make("span", "", `${counted(this.bytes.length, "octet")}. Point at a field or at octets, or use the arrow keys.`));
        return;
      }
      while (this.drawn < this.bytes.length && this.drawn < found.begin) this.drawMore();
      this.leaves.forEach((it, number) => {
        if (it.begin >= found.begin && it.end <= found.end) this.lit.push(...this.runs[number]);
      });
      let item = found.item;
      for (let above = item; (above = above.parentElement.closest('[aria-expanded="false"]')) && this.list.contains(above); ) item = above;
      this.lit.push(item);
      this.lit.forEach((it) => it.classList.add("on"));
      const size = found.end - found.begin;
      this.readout.append(make("b", "", found.path.slice(-2).join(" › ")), make("span", "", ` · ${counted(size, "octet")} at ${this.begin + found.begin}`));
      if (found.said) this.readout.append(make("br", ""), say(make("bdi", ""), found.said.slice(0, 200)));
    }

    /** Lights a field until another one is chosen, and brings its octets into sight. */
    pin(found, isFromOctets) {
      this.pinned = found;
      this.tell(found);
      const run = this.hex.querySelector(".on");
      if (!found || !run) return;
      const [box, at] = [this.hex.getBoundingClientRect(), run.getBoundingClientRect()];
      if (at.top < box.top || at.bottom > box.bottom) this.hex.scrollTop += at.top - box.top - box.height / 3;
      if (isFromOctets && window.innerWidth > 1180) this.list.querySelector(".on > .row")?.scrollIntoView({ block: "nearest" });
    }

    events() {
      const itemOf = (event) => this.items[event.target.closest("li")?.dataset.item];
      const leafOf = (event) => this.leaves[event.target.closest(".run")?.dataset.leaf];
      this.list.addEventListener("pointerover", (it) => it.pointerType === "mouse" && itemOf(it) && this.tell(itemOf(it)));
      this.list.addEventListener("pointerleave", () => this.tell(this.pinned));
      this.hex.addEventListener("pointerover", (it) => it.pointerType === "mouse" && this.tell(leafOf(it) || this.pinned));
      this.hex.addEventListener("pointerleave", () => this.tell(this.pinned));
      this.hex.addEventListener("click", (it) => leafOf(it) && this.pin(leafOf(it), true));
      this.hex.addEventListener("keydown", (it) => this.key(it));
      this.hex.addEventListener("scroll", () => {
        if (this.drawn < this.bytes.length && this.hex.scrollTop + 2 * this.hex.clientHeight > this.hex.scrollHeight) this.drawMore();
      });
      this.itemsOf = new Items(this.list, (item) => this.pin(this.items[item.dataset.item]));
    }

    key(event) {
      const count = this.leaves.length;
      const at = this.pinned ? this.leaves.findIndex((it) => it.begin >= this.pinned.begin && it.end > this.pinned.begin) : -1;
      const to = { ArrowRight: at + 1, ArrowDown: at + 1, ArrowLeft: at - 1, ArrowUp: at - 1, Home: 0, End: count - 1 }[event.key];
      if (event.key === "Escape") this.pin(null);
      else if (to === undefined || event.target !== this.hex) return;
      else this.pin(this.leaves[Math.max(0, Math.min(count - 1, to))], true);
      event.preventDefault();
    }
  }

  // ---- What is chosen

  const detail = document.getElementById("detail");
  const tree = document.getElementById("tree");
  let views = [];

  function facts(those) {
    const made = make("dl", "facts");
    for (const [name, said, tone, about] of those) {
      const value = make("bdi", "");
      if (about === null) say(value, text(said));
      else value.append(link(about, text(said) || nodes[about].id));
      made.append(make("dt", "", text(name)), make("dd", tone, value));
    }
    return made;
  }

  function view(...how) {
    views.push(new View(...how));
    return views[views.length - 1].element;
  }

  /** A strip of the first fields of a view, each as wide as it is long. */
  function strip(of) {
    const made = make("div", "strip");
    for (const item of of.list.children) {
      const found = of.items[item.dataset.item];
      const size = found.end - found.begin;
      const button = make("button", found.color, make("b", "", found.path[0]), ` ${size.toLocaleString("en")}`);
      button.style.flexGrow = size;
      button.addEventListener("click", () => of.pin(found));
      made.append(button);
    }
    return made;
  }

  function hashed(it) {
    const pieces = it.pieces.map((piece) => (typeof piece === "string" ? bytesOf(piece.replace(/../g, (it) => String.fromCharCode(parseInt(it, 16)))) : octets.subarray(piece[0], piece[0] + piece[1])));
    const size = pieces.reduce((sum, piece) => sum + piece.length, 0);
    const whole = new Uint8Array(size);
    pieces.reduce((at, piece) => (whole.set(piece, at), at + piece.length), 0);
    const fits = it.digest.startsWith(it.left);
    const mark = make("mark", "", it.digest.slice(0, 4));
    const verdict = fits ? `It begins with the left 16 bits that the signature states, ${it.left}.` : `The signature states the left 16 bits ${it.left}: they don't match.`;
    const drawn = view(whole, it.fields);
    return [
      make("h3", "", "What it hashes"),
      make("p", "", `${counted(size, "octet")}, in this order:`),
      strip(views[views.length - 1]),
      drawn,
      make("div", "digest", make("p", "", `${it.name} of these octets`), make("span", "code", mark, it.digest.slice(4)), make("p", fits ? "" : "b", verdict)),
    ];
  }


  /** The user ID and the fingerprint of the certificate that a node is in. */
  function certificateOf(number) {
    let at = number;
    while (nodes[at].up !== null) at = nodes[at].up;
    if (at === number || nodes[at].kind !== "cert") return [];
    const print = nodes[at].facts.find((it) => text(it[0]) === "Fingerprint");
    return [make("p", "of", say(make("bdi", ""), text(nodes[at].title)), make("code", "", text(print[1])))];
  }

  function steps(number) {
    const made = make("div", "steps");
    if (number > 0) made.append(link(number - 1, `← ${text(nodes[number - 1].title)}`));
    if (number + 1 < nodes.length) made.append(link(number + 1, `${text(nodes[number + 1].title)} →`));
    return made;
  }

  function show(number) {
    const it = nodes[number];
    views = [];
    const size = it.fields.reduce((sum, field) => sum + field[SIZE], 0);
    detail.replaceChildren(
      ...certificateOf(number),
      make("p", "place", it.place),
      say(make("h2", ""), text(it.title)),
      facts(it.facts),
      make("h3", "", it.kind === "cert" ? "Packets" : "Octets"),
      view(octets.subarray(it.at, it.at + size), it.fields),
      ...(it.hashed ? hashed(it.hashed) : []),
      steps(number),
    );
    views.forEach((each) => each.draw());
  }

  /** Shows the node that the address names, and chooses it in the tree. */
  function follow() {
    const number = Math.max(0, nodes.findIndex((it) => `#${it.id}` === location.hash));
    const item = tree.querySelector(`li[data-node="${number}"]`);
    tree.querySelector('[aria-selected="true"]')?.setAttribute("aria-selected", "false");
    if (!item) return;
    item.setAttribute("aria-selected", "true");
    for (let above = item; (above = above.parentElement.closest("li")); ) above.setAttribute("aria-expanded", "true");
    items.stop(item);
    const [box, row] = [tree.parentElement, item.querySelector(".row").getBoundingClientRect()];
    const there = box.getBoundingClientRect();
    if (row.top < there.top || row.bottom > there.bottom) box.scrollTop += row.top - there.top - there.height / 3;
    show(number);
  }

  function choose(item, how) {
    const id = `#${nodes[item.dataset.node].id}`;
    const isNarrow = window.innerWidth <= 760;
    if (how === "arrow") history.replaceState(null, "", id);
    else if (location.hash !== id) history.pushState(null, "", id);
    follow();
    if (how === "enter") detail.focus({ preventScroll: !isNarrow });
    if (how !== "arrow" && isNarrow) detail.scrollIntoView();
    else if (!isNarrow) window.scrollTo({ top: 0, behavior: "instant" });
  }

  /** Leaves those certificates in the tree that have what is looked for. */
  function find(wanted) {
    const looked = wanted.toLowerCase().replace(/\s+/g, "");
    for (const item of tree.children) {
      const said = nodes[item.dataset.node].facts.map((it) => text(it[1])).join("\n");
      item.hidden = !said.toLowerCase().replace(/[^\S\n]+/g, "").includes(looked);
    }
    items.stop(items.visible()[0]);
  }

  let columns = null;
  let items = null;
  if (tree && nodes.length) {
    items = new Items(tree, choose);
    document.getElementById("find")?.addEventListener("input", (it) => find(it.target.value));
    window.addEventListener("hashchange", () => {
      follow();
      window.scrollTo({ top: window.innerWidth > 760 ? 0 : detail.offsetTop, behavior: "instant" });
    });
    follow();
  } else if (nodes.length) {
    const it = nodes[0];
    document.getElementById("octets").append(make("h3", "", "The octets"), make("p", "", it.place), view(octets, it.fields, base));
    views[0].draw();
  }
  window.addEventListener("resize", () => {
    const isWide = window.innerWidth > 760;
    if (columns !== null && columns !== isWide) views.forEach((it) => it.draw());
    columns = isWide;
  });
})();
