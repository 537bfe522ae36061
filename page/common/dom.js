// The document's elements.

/** The element with an id. */
export function byId(name) {
  return document.getElementById(name);
}

/** A new element with properties and what it has inside. */
export function element(name, properties = {}, ...inside) {
  const made = document.createElement(name);
  for (const [key, value] of Object.entries(properties)) {
    if (key.startsWith("aria-") || key === "role" || key === "for") made.setAttribute(key, value);
    else made[key] = value;
  }
  made.append(...inside);
  return made;
}

/** Gives an element a text, where it has another one. */
export function setText(made, text) {
  if (made.said === text) return;
  made.said = text;
  if (made.firstChild) made.firstChild.data = text;
  else made.append(text);
}

/** Gives an element's properties values, where they have others. */
export function setAll(made, properties) {
  for (const [key, value] of Object.entries(properties)) if (made[key] !== value) made[key] = value;
}

/** The names of those classes that are to be had, in one text. */
export function classesOf(...names) {
  return names.filter(name => name).join(" ");
}

/** A link to a place of the documentation. */
export function pageLink(base, page, anchor, title, properties = {}) {
  return element("a", { href: `${base}${page}#${anchor}`, target: "_blank", rel: "noopener",
    ...properties }, title);
}

/** An element's id that has letters, digits and hyphens alone. */
export function idOf(...parts) {
  return parts.join("-").toLowerCase().replace(/[^a-z0-9]+/g, "-");
}

/** A select element with these values and titles. */
export function selectOf(label, options, properties = {}) {
  const made = element("select", { "aria-label": label, ...properties });
  for (const [value, title] of options) made.append(new Option(title, value));
  return made;
}

/** A colour of six bits a component, as CSS has it. */
export function cssColour([red, green, blue]) {
  return `rgb(${[red, green, blue].map(six => six << 2 | six >> 4).join(" ")})`;
}

/** Which rows of a list are in sight: { first, last }, with so many more before and after. */
export function rowsInSight(scrollTop, height, row, count, more) {
  const first = Math.max(0, Math.floor(scrollTop / row) - more);
  return { first, last: Math.min(count, Math.ceil((scrollTop + height) / row) + more) };
}
