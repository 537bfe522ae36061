// The parts of the page that open as they are needed, opened: for tests that use what is in them.

/**
 * In the page: has all parts open, and what tells a newcomer what the page is closed. A first picture that is being
 * drawn is whole.
 */
const OPEN = `(() => {
  if (document.getElementById("play").textContent === "pause") {
    document.dispatchEvent(new Event("wheel"));
    document.getElementById("last").click();
  }
  if (!document.getElementById("welcome").hidden) document.getElementById("welcomed").click();
  for (const opener of document.querySelectorAll(".opener[aria-expanded=false]")) opener.click();
  return new Promise(done => requestAnimationFrame(() => setTimeout(done, 0)));
})()`;

/** Opens all parts of the page in a browser, as one who knows the page has them. */
export function openParts(browser) {
  return browser.value(OPEN);
}

/**
 * In the page: where the middle of an element is, which is in sight then; and whether what it stands in had to be
 * opened, and is to be closed again: [left, top, isOpened]. A field stays open, for what is typed into it.
 */
export const middleOf = selector => `(() => {
  const control = document.querySelector(${JSON.stringify(selector)}), box = control.closest("details.flyout:not([open])");
  const isWithin = box && control.tagName !== "SUMMARY";
  if (isWithin) box.open = true;
  control.scrollIntoView({ block: "nearest" });
  const { left, top, width, height } = control.getBoundingClientRect();
  return [left + width / 2, top + height / 2, Boolean(isWithin) && !control.matches("input:not([type=checkbox])")];
})()`;

/** In the page: closes what was opened beside a button. */
export const CLOSE = "document.querySelectorAll('details.flyout').forEach(box => { box.open = false; })";
