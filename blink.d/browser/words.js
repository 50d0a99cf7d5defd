// Words and numbers as they are shown.

export const element = id => document.getElementById(id);

// To a field, to type in it.
export function toField(id) {
  element(id).focus();
  element(id).select();
}

// All that comes from the data is numbers and words of its formats; it is escaped nevertheless.
const LETTERS = { "&": "&amp;", "<": "&lt;", ">": "&gt;", '"': "&quot;" };
export const escaped = text => String(text).replace(/[&<>"]/g, letter => LETTERS[letter]);

export const cut = text => (text.length > 60 ? `${text.slice(0, 57)}…` : text);

// A number of many digits by its first and last ones.
export function short(number) {
  const digits = String(number);
  return digits.length > 11 ? `${digits.slice(0, 4)}…${digits.slice(-4)}` : digits;
}

export const grouped = number => String(number).replace(/\B(?=(\d{3})+$)/g, ",");

export function many(number, word) {
  const words = { child: "children", process: "processes" }[word] || `${word}s`;
  return `${grouped(number)} ${number === 1 ? word : words}`;
}

// What a page covers.
export const span = (low, high, spelled = short) => `[${spelled(low)}, ${high === 0n ? ".." : spelled(high)})`;
