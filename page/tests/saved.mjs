// What stands where in the bytes of a saved state, as docs/STATE.md has it: the tests hold what the
// module's readers tell to it.

const AT = { bda: 9, misc: 40, crtc: 41, attr: 78, dac: 101, host: 874 };

/** The registers, latches, beam and BIOS data of saved bytes. */
export function partsOfSaved(bytes) {
  const view = new DataView(bytes.buffer, bytes.byteOffset, bytes.length), dac = AT.dac + 768;
  const part = (at, length) => bytes.slice(at, at + length), { crtc, attr, host, bda } = AT;
  const word = (at, offset) => view.getUint16(at + offset, true);
  return {
    registers: { misc: bytes[AT.misc], seq: part(host + 4, 5), seqIndex: bytes[host + 18],
      gfx: part(host + 9, 9), gfxIndex: bytes[host + 19], crtc: part(crtc, 25),
      crtcIndex: bytes[crtc + 25], attr: part(attr, 21), attrIndex: bytes[attr + 21],
      attrIsData: bytes[attr + 22] === 1, dacIndex: bytes[dac], dacComponent: bytes[dac + 1],
      dacWaitingRed: bytes[dac + 2], dacWaitingGreen: bytes[dac + 3], dacMask: bytes[dac + 4] },
    latches: part(host, 4),
    beam: { frame: bytes[crtc + 26], line: word(crtc, 27), character: word(crtc, 29),
      dot: bytes[crtc + 31], base: word(crtc, 32), scan: bytes[crtc + 34], half: bytes[crtc + 35],
      split: bytes[crtc + 36] },
    bda: { mode: bytes[bda], columns: word(bda, 1), size: word(bda, 3), start: word(bda, 5),
      places: [0, 1, 2, 3, 4, 5, 6, 7].map(page => word(bda, 7 + 2 * page)), type: word(bda, 23),
      page: bytes[bda + 25], crtc: word(bda, 26), lastRow: bytes[bda + 28],
      height: word(bda, 29) },
  };
}
