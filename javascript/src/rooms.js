// The rooms of the module's memory, by their names.

/**
 * What calls answer that is long: pictures, reports, states. Each is copied, or looked at until the next
 * call, so all share one room.
 */
export const ANSWER = "answer";
