// Drafts: what is being written, kept by the browser for its member until it is sent or thrown away.

const PREFIX = "kom-draft";

/**
 * A draft is { to: [{ number, tag }], comments: [text], footnotes: [text], subject, body, changed }.
 * Events: `draft` with the key, when another tab has changed or removed one.
 */
export class Drafts extends EventTarget {
  person = 0;

  constructor() {
    super();
    globalThis.addEventListener?.("storage", ({ key }) => {
      if (key?.startsWith(`${PREFIX}:${this.person}:`)) {
        this.dispatchEvent(new CustomEvent("draft", { detail: key.split(":").slice(2).join(":") }));
      }
    });
  }

  #name(key) {
    return `${PREFIX}:${this.person}:${key}`;
  }

  /** The draft of this key, or null. */
  get(key) {
    try {
      const draft = JSON.parse(localStorage.getItem(this.#name(key)));
      return draft !== null && Array.isArray(draft.to) && typeof draft.body === "string" ? draft : null;
    } catch {
      return null;
    }
  }

  /** Keeps a draft: whether the browser did. */
  keep(key, draft) {
    try {
      localStorage.setItem(this.#name(key), JSON.stringify({ ...draft, changed: Date.now() }));
      return true;
    } catch {
      return false;
    }
  }

  remove(key) {
    try {
      localStorage.removeItem(this.#name(key));
    } catch {
      // A browser that keeps nothing has nothing to remove.
    }
  }

  /** The keys of all drafts of this member, the last changed first. */
  keys() {
    const begin = this.#name("");
    try {
      return Object.keys(localStorage)
        .filter((name) => name.startsWith(begin))
        .map((name) => name.slice(begin.length))
        .filter((key) => this.get(key) !== null)
        .sort((one, other) => this.get(other).changed - this.get(one).changed);
    } catch {
      return [];
    }
  }
}
