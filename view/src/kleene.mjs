/* ======== Kleene: the three truth values, as numbers that stand in tables ======== */
const NO = 0, YES = 1, MAYBE = 2;
export const Kleene = Object.freeze({
  NO, YES, MAYBE,
  text: value => ["0", "1", "1/2"][value],
  not: value => [YES, NO, MAYBE][value],
  and: (a, b) => a === NO || b === NO ? NO : a === MAYBE || b === MAYBE ? MAYBE : YES,
  or: (a, b) => a === YES || b === YES ? YES : a === MAYBE || b === MAYBE ? MAYBE : NO,
  equal: (a, b) => a === MAYBE || b === MAYBE ? MAYBE : a === b ? YES : NO,
  /** Whether a heap may have a value that both allow. */
  agree: (a, b) => a === MAYBE || b === MAYBE || a === b,
});
