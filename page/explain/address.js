// The address by which a program reaches a byte of a plane. The adapter is asked where addresses
// lead (zak_explain_put), with each plane let through by the map mask.

/** Where the windows of memory begin. */
const BEGINS = [0xa0000, 0xb0000, 0xb8000];
/** The addresses of a byte are at most so much above its offset: in a chain a plane has one of four. */
const NEAR = [0, 1, 2, 3];
const INDEX = 0x3c4, MAP_MASK = 2, ALL = 15;

/** The lowest address by which a write reaches an offset of a plane in a state; null where none does. */
export function addressOf(state, plane, offset) {
  const { scratch } = state;
  scratch.tryOut(INDEX, MAP_MASK);
  scratch.tryOut(INDEX + 1, ALL);
  for (const begin of BEGINS) {
    const reaches = address => {
      const stages = scratch.tryExplainPut(address, 0);
      return stages !== null && stages.offset === offset && (stages.planes >> plane & 1) === 1;
    };
    const found = NEAR.find(more => reaches(begin + offset + more));
    if (found !== undefined) return begin + offset + found;
  }
  return null;
}
