// What a person does with the script in a browser, and what stands there.

const CODE = "document.querySelector('.CodeMirror').CodeMirror";
/** The script's text: that of the field, or of a text that is too long for it. */
export const TEXT = `${CODE}.getValue()`;

/** An expression that is true where the script has this text. */
export const textIs = wanted => `document.querySelector(".CodeMirror") && ${TEXT} === ${JSON.stringify(wanted)}`;

/** Puts the caret at a place of the text, in characters; at its end where none is told. */
export async function caretAt(browser, place) {
  await select(browser, place ?? `${TEXT}.length`);
}

/** Selects a part of the text. */
export async function select(browser, from, to = from) {
  await browser.value(`(() => { const code = ${CODE};
    code.focus();
    code.setSelection(code.posFromIndex(${from}), code.posFromIndex(${to})); })()`);
}

/** Pastes a text over the whole script. */
export async function pasteOver(browser, script) {
  await browser.click("#page");
  await browser.selectAll();
  await browser.paste(script);
  await browser.until(textIs(script), 40000);
}

/** In the page: puts a text in place of what is selected, as one that is pasted. */
export function pasting(text) {
  return `(() => {
    const told = ${JSON.stringify(text)}, data = new DataTransfer();
    data.setData("text/plain", told);
    // Firefox takes a text alone.
    const given = { clipboardData: data, dataType: "text/plain", data: told, bubbles: true, cancelable: true };
    return document.activeElement.dispatchEvent(new ClipboardEvent("paste", given));
  })()`;
}
