// A set of numbers from 1 on, as rising ranges that do not touch: what a member has read of a conference.

export class Ranges {
  #ranges;

  /** From records of first and last. */
  constructor(ranges = []) {
    this.#ranges = ranges.map(({ first, last }) => [first, last]);
  }

  /** The place of the first range that ends at or behind this number. */
  #place(number) {
    let low = 0;
    let high = this.#ranges.length;
    while (low < high) {
      const middle = (low + high) >> 1;
      if (this.#ranges[middle][1] < number) low = middle + 1;
      else high = middle;
    }
    return low;
  }

  has(number) {
    const range = this.#ranges[this.#place(number)];
    return range !== undefined && range[0] <= number;
  }

  add(number) {
    const place = this.#place(number - 1);
    const range = this.#ranges[place];
    if (range !== undefined && range[0] <= number && number <= range[1]) return;
    const below = range !== undefined && range[1] === number - 1;
    const above = this.#ranges[below ? place + 1 : place];
    if (below && above?.[0] === number + 1) this.#ranges.splice(place, 2, [range[0], above[1]]);
    else if (below) range[1] = number;
    else if (above?.[0] === number + 1) above[0] = number;
    else this.#ranges.splice(place, 0, [number, number]);
  }

  remove(number) {
    const place = this.#place(number);
    const range = this.#ranges[place];
    if (range === undefined || range[0] > number) return;
    const parts = [[range[0], number - 1], [number + 1, range[1]]];
    this.#ranges.splice(place, 1, ...parts.filter(([first, last]) => first <= last));
  }

  /** The least number from this one on that is not in the set. */
  firstMissing(from) {
    const range = this.#ranges[this.#place(from)];
    return range !== undefined && range[0] <= from ? range[1] + 1 : from;
  }

  /** How many numbers of a span are not in the set. */
  missing(first, last) {
    if (last < first) return 0;
    let count = last - first + 1;
    for (let place = this.#place(first); place < this.#ranges.length; place += 1) {
      const [begin, end] = this.#ranges[place];
      if (begin > last) break;
      count -= Math.min(end, last) - Math.max(begin, first) + 1;
    }
    return count;
  }
}
