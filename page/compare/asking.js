import { element } from "../common/dom.js";

/**
 * Asks a question in a small dialog. `answers` are [value, title] pairs, the first of which Enter
 * takes. Which value was chosen; "" if the dialog was closed.
 */
export function ask(question, answers) {
  const buttons = answers.map(([value, title]) => element("button", { value }, title));
  const form = element("form", { method: "dialog" }, element("p", {}, question),
    element("div", { className: "bar" }, ...buttons));
  const label = "what to do with the file";
  const box = element("dialog", { className: "ask", "aria-label": label }, form);
  document.body.append(box);
  return new Promise(resolve => {
    box.addEventListener("close", () => {
      box.remove();
      resolve(box.returnValue);
    });
    box.showModal();
    buttons[0].focus();
  });
}
