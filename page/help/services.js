/** The sections of docs/SERVICES.md by AH. */
export const SERVICE_ANCHORS = { 0: "00-set-a-mode", 1: "01-set-the-cursors-scan-lines",
  2: "02-set-the-cursor-position",
  3: "03-read-the-cursor", 5: "05-show-a-page", 6: "06-and-07-scroll-a-window",
  7: "06-and-07-scroll-a-window",
  8: "08-read-a-cell", 9: "09-and-0a-write-cells", 10: "09-and-0a-write-cells",
  12: "0c-write-a-dot", 13: "0d-read-a-dot",
  14: "0e-type-a-character", 15: "0f-read-the-mode", 16: "10-palette-and-dac", 17: "11-load-glyphs",
  18: "12-read-the-adapter", 19: "13-write-a-string", 26: "1a-read-the-display" };
