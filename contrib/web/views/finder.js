// A field that finds conferences or persons by parts of their names while one types.

import { bytesOfName, nameOf } from "../letters.js";
import { sentenceOn } from "../errors.js";
import { button, el, field, many } from "./dom.js";

const PAUSE = 250;
const SHOWN = 40;

/**
 * A finder with a label. `chosen(number, name)` is called for what is chosen; `persons` and `conferences` say
 * what is looked for.
 */
export function finder(app, wanted) {
  const { label, hint, persons = true, conferences = true, words = (name) => name, chosen, clears = true } = wanted;
  const { club } = app;
  const input = el("input", { type: "search", autocomplete: "off", spellcheck: "false" });
  const results = el("ul", { class: "found" });
  const status = el("p", { class: "hint", role: "status" });
  let timer = 0;
  let asked = 0;

  function offer(number, name, isPerson) {
    return el("li", {}, button([el("bdi", {}, words(name)), el("span", { class: "hint" }, isPerson ? " person" : " conference")], () => {
      if (clears) {
        input.value = "";
        results.replaceChildren();
        status.textContent = "";
      }
      chosen(number, name);
    }));
  }

  async function look() {
    const pattern = input.value.trim();
    asked += 1;
    const mine = asked;
    if (pattern === "") {
      results.replaceChildren();
      status.textContent = "";
      return;
    }
    try {
      let found;
      if (/^\d+$/.test(pattern)) {
        const known = await club.names.ask(Number(pattern));
        found = known ? [{ number: Number(pattern), name: known.name, type: known.type }] : [];
      } else {
        const rows = await app.session.call("lookUp", bytesOfName(pattern), persons, conferences);
        found = rows.map((row) => ({ number: row.number, name: nameOf(row.name), type: row.type }));
      }
      if (mine !== asked) return;
      for (const { number, name } of found) club.names.take(number, name);
      status.textContent = found.length === 0 ? "Nothing has such a name."
        : found.length > SHOWN ? `${many(found.length, "name")}; the first ${SHOWN} are shown.` : many(found.length, "name");
      results.replaceChildren(...found.slice(0, SHOWN).map(({ number, name, type }) => offer(number, name, type[3] === "1")));
    } catch (error) {
      if (mine === asked) status.textContent = sentenceOn(error);
    }
  }

  input.addEventListener("input", () => {
    clearTimeout(timer);
    timer = setTimeout(look, PAUSE);
  });
  input.addEventListener("keydown", (event) => {
    if (event.key !== "Enter") return;
    event.preventDefault();
    clearTimeout(timer);
    look().then(() => results.children.length === 1 && results.querySelector("button").click());
  });
  return el("div", { class: "finder" }, field(label, input, hint), status, results);
}
