// How fast the beam of a card is, as the card itself tells.

/** The dots of a frame, and those that pass in a second. */
export function speedOf(card) {
  const { frameDots, rate, rateDivisor } = card.clock();
  return { dots: frameDots, rate: rate / rateDivisor };
}

/** How long a frame of a card lasts, in seconds. */
export function frameSeconds(card) {
  const { dots, rate } = speedOf(card);
  return dots / rate;
}
