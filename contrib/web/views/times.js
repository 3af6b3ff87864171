// Moments in words, in the time of the browser.

import { el } from "./dom.js";

const two = (number) => String(number).padStart(2, "0");
const day = (at) => `${at.getFullYear()}-${two(at.getMonth() + 1)}-${two(at.getDate())}`;

/** A moment, short. */
export function momentWords(moment) {
  const at = new Date(moment);
  const clock = `${two(at.getHours())}:${two(at.getMinutes())}`;
  const today = new Date();
  const yesterday = new Date(today.getFullYear(), today.getMonth(), today.getDate() - 1);
  if (day(at) === day(today)) return `today ${clock}`;
  if (day(at) === day(yesterday)) return `yesterday ${clock}`;
  return `${day(at)} ${clock}`;
}

const MONTHS = "Jan Feb Mar Apr May Jun Jul Aug Sep Oct Nov Dec".split(" ");

/** A moment, as short as it can be. */
export function momentShort(moment) {
  const at = new Date(moment);
  const today = new Date();
  const words = day(at) === day(today) ? `${two(at.getHours())}:${two(at.getMinutes())}`
    : `${at.getDate()} ${MONTHS[at.getMonth()]}${at.getFullYear() === today.getFullYear() ? "" : ` ${at.getFullYear()}`}`;
  return el("time", { datetime: at.toISOString() }, words);
}

/** A moment as an element. */
export const momentOf = (moment) => el("time", { datetime: new Date(moment).toISOString() }, momentWords(moment));

/** A number of seconds in words. */
export function spanWords(seconds) {
  if (seconds < 60) return "under 1 min";
  if (seconds < 3600) return `${Math.floor(seconds / 60)} min`;
  if (seconds < 86_400) return `${Math.floor(seconds / 3600)} h ${Math.floor((seconds % 3600) / 60)} min`;
  return `${Math.floor(seconds / 86_400)} days`;
}
