// The breakpoints, and the form that makes them.
import { GROUPS } from "../script/registers.js";
import { element, selectOf } from "../common/dom.js";
import { hex } from "../common/bytes.js";
import { pointText } from "../run/points.js";

const POINT_KINDS = [["line", "a line of the script"], ["port", "a port"],
  ["address", "an address of memory"], ["bytes", "bytes of planes that change"],
  ["register", "a register's change"], ["beam", "a place of the beam"],
  ["refusal", "any refusal"], ["wrong", "an answer that is not as expected"]];
const WAYS = [["either", "read or written"], ["read", "read"], ["written", "written"]];

/** The registers that a breakpoint may watch: [value, title]. */
function watchable() {
  const all = GROUPS.flatMap(group => [
    ...(group.registers.length > 1 ? [[`${group.id} any`, `${group.title}: any`]] : []),
    ...group.registers.map((register, i) => [`${group.id} ${i}`, group.registers.length > 1
      ? `${group.title} ${hex(i, 1)}: ${register.name}` : group.title]),
  ]);
  return [...all, ["dac any", "DAC: any entry"]];
}

/** The bytes that a form names, or what is wrong with it. */
function bytesOf(form) {
  const planes = form.getAll("plane").reduce((mask, plane) => mask | 1 << plane, 0);
  const from = form.get("from").trim(), to = form.get("to").trim() || from;
  if (!planes) return "choose a plane";
  if (![from, to].every(text => /^[0-9A-Fa-f]{1,4}$/.test(text))) {
    return "an offset has 1 to 4 hexadecimal digits";
  }
  const [first, last] = [from, to].map(text => parseInt(text, 16));
  return first > last ? "the first offset is after the last"
    : { kind: "bytes", planes, from: first, to: last };
}

/** The panel of breakpoints. `heard` has `changed(points)`. */
export class PointPanel {
  constructor(heard) {
    Object.assign(this, { heard, points: [], kind: "port", box: element("div", { className: "points" }) });
    this.fill();
  }

  change(points) {
    this.points = points;
    this.fill();
    this.heard.changed(points);
  }

  /** Sets a breakpoint at a line, or removes it. */
  toggleLine(line) {
    const left = this.points.filter(point => point.kind !== "line" || point.line !== line);
    this.change(left.length < this.points.length ? left : [...left, { kind: "line", line, isOn: true }]);
  }

  fill() {
    const rows = this.points.map(point => {
      const switched = ({ target }) => this.change(this.points.map(one =>
        one === point ? { ...point, isOn: target.checked } : one));
      const box = element("input",
        { type: "checkbox", checked: point.isOn, onchange: switched });
      const remove = element("button", { type: "button", "aria-label": `remove ${pointText(point)}`,
        onclick: () => this.change(this.points.filter(one => one !== point)) }, "remove");
      return element("li", {}, element("label", {}, box, ` ${pointText(point)}`), remove);
    });
    const hint = "A run stops after the step that meets a breakpoint, so you see what the step did. " +
      "Cycles within a BIOS call meet no port and no address; what they change in registers and " +
      "planes does. " +
      "Click a line's number to set a breakpoint there.";
    this.box.replaceChildren(element("p", { className: "hint" }, hint), this.form(), rows.length
      ? element("ul", { "aria-label": "breakpoints" }, ...rows)
        : element("p", {}, "There are no breakpoints: a run goes to the end."));
  }

  form() {
    const kinds = selectOf("what to stop at", POINT_KINDS, { id: "pointkind", onchange: event => {
      this.kind = event.target.value;
      this.fill();
      this.box.querySelector("#pointkind").focus();
    } });
    kinds.value = this.kind;
    const why = element("span", { className: "wrong", role: "alert" });
    const made = element("form", { className: "bar", onsubmit: event => {
      event.preventDefault();
      const point = this.pointOf(new FormData(made));
      if (typeof point === "string") why.textContent = point;
      else this.change([...this.points, { ...point, isOn: true }]);
    } }, element("label", {}, "Stop at ", kinds), ...this.fields(),
      element("button", { id: "pointadd" }, "add"), why);
    return made;
  }

  fields() {
    const number = (name, label, title) => element("label", {}, `${label} `,
      element("input", { name, size: 6, title, autocomplete: "off" }));
    const way = selectOf("way", WAYS, { name: "way" });
    const registers = selectOf("register", watchable(), { name: "register" });
    const planes = [0, 1, 2, 3].map(plane => element("label", {}, element("input",
      { type: "checkbox", name: "plane", value: plane, checked: true }), ` ${plane}`));
    const bytes = [element("span", {}, "planes ", ...planes),
      number("from", "offset", "hexadecimal"), number("to", "to", "hexadecimal; may be left out")];
    return { bytes, wrong: [], line: [number("line", "line", "decimal")], port: [number("place", "port", "hexadecimal"), way],
      address: [number("place", "address", "hexadecimal")].concat(way), register: [registers],
      beam: [number("line", "line", "decimal"), number("dot", "dot", "decimal")], refusal: [] }[this.kind];
  }

  /** The breakpoint of a form, or what is wrong with it. */
  pointOf(form) {
    const { kind } = this, decimal = name => (/^\d{1,8}$/.test(form.get(name).trim())
      ? Number(form.get(name)) : null);
    if (kind === "refusal" || kind === "wrong") return { kind };
    if (kind === "bytes") return bytesOf(form);
    if (kind === "register") {
      const [group, index] = form.get("register").split(" ");
      const [, title] = watchable().find(([value]) => value === form.get("register"));
      return { kind, group, index: index === "any" ? null : Number(index), title };
    }
    if (kind === "line" || kind === "beam") {
      const line = decimal("line"), dot = kind === "beam" ? decimal("dot") : 0;
      return line === null || dot === null ? "lines and dots are decimal" : { kind, line, dot };
    }
    const digits = kind === "port" ? 4 : 8, text = form.get("place").trim();
    const isPlace = new RegExp(`^[0-9A-Fa-f]{1,${digits}}$`).test(text);
    if (!isPlace) return `${kind === "port" ? "a port" : "an address"} has 1 to ${digits} hexadecimal digits`;
    return { kind, place: parseInt(text, 16), way: form.get("way") };
  }
}
