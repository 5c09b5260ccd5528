/** The greatest of many numbers, and of `least`. */
export const greatest = (numbers, least = 0) => numbers.reduce((a, b) => Math.max(a, b), least);

/** A number with one digit behind the point. */
export const rounded = number => Math.round(number * 10) / 10;
