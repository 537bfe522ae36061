// The sections of the documentation that the page links to, which it shows itself. They stand in
// its data, as tools/zaklimot_dev/page/sections.py makes them of docs/.
import { byId, element, pageLink } from "../common/dom.js";

const LINK = /^(?:([A-Z-]+\.md))?(?:#(.*))?$/;

/** The sections: `data` by page and anchor, and `base`, where the whole pages lie. */
export class Sections {
  #box = byId("sectionbox");
  #shown = element("div");

  constructor(data, base) {
    this.data = data;
    this.base = base;
    this.#box.append(this.#shown);
    // A press with a key held goes to the whole page, as of any link.
    document.addEventListener("click", event => {
      const link = event.target.closest?.("a[href]"), { ctrlKey, metaKey, shiftKey } = event;
      if (!link || link.dataset.isWhole || ctrlKey || metaKey || shiftKey) return;
      const [page, anchor] = this.#placeOf(link.getAttribute("href"));
      if (this.show(page, anchor)) event.preventDefault();
    });
  }

  /** The page and the anchor of an address. */
  #placeOf(address) {
    const isOurs = address.startsWith(this.base);
    const [, page, anchor = ""] = (isOurs && address.slice(this.base.length).match(LINK)) || [];
    return [page, anchor];
  }

  /** Shows a section; whether it is there. */
  show(page, anchor) {
    const section = this.data[page]?.[anchor];
    if (!section) return false;
    const whole = pageLink(this.base, page, anchor, `the whole page, ${page}`);
    whole.dataset.isWhole = "yes";
    byId("sectiontitle").textContent = section.title;
    const blocks = section.blocks.map(block => this.#blockOf(block, page));
    this.#shown.replaceChildren(...blocks, element("p", {}, "See ", whole, "."));
    if (!this.#box.open) this.#box.showModal();
    this.#box.scrollTop = 0;
    return true;
  }

  #blockOf([kind, ...parts], page) {
    const inline = list => this.#inline(list, page);
    if (kind === "pre") return element("pre", {}, parts[0]);
    if (kind === "h") return element("h3", {}, ...inline(parts[0]));
    if (kind === "p") return element("p", {}, ...inline(parts[0]));
    if (kind !== "table") {
      return element(kind, {}, ...parts.map(item => element("li", {}, ...inline(item))));
    }
    const row = (cells, name) => element("tr", {}, ...cells.map((cell, i) =>
      element(i ? name : "th", {}, ...inline(cell))));
    const [head, ...rows] = parts, hasHead = head.some(cell => cell.length);
    return element("table", {}, ...(hasHead ? [row(head, "th")] : []),
      ...rows.map(cells => row(cells, "td")));
  }

  #inline(list, page) {
    return list.map(part => {
      if (typeof part === "string") return part;
      const [kind, ...parts] = part;
      if (kind !== "a") return element(kind, {}, ...this.#inline(parts[0], page));
      const [address, inside] = parts, place = address.startsWith("#") ? page + address : address;
      const isWeb = /^https?:/.test(address);
      return element("a", { href: isWeb ? address : this.base + place, target: "_blank",
        rel: "noopener" }, ...this.#inline(inside, page));
    });
  }
}
