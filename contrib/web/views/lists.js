// Lists of texts: the last ones of a conference or a person, and those that are marked.

import { button, el, heading, letters, link } from "./dom.js";
import { nameOf } from "./names.js";
import { momentOf } from "./times.js";

const PAGE = 20;
const BLOCK = 255;

/** A row for each text, filled in as they are known. */
function rowOf(app, number) {
  const { club } = app;
  const row = el("li", {}, link(`text/${number}`, `text ${number}`));
  Promise.all([club.texts.stat(number), club.texts.subject(number)]).then(([stat, subject]) => {
    const anchor = link(`text/${number}`, letters(subject || "(no subject)"));
    anchor.classList.toggle("unread", club.isUnreadBy(stat));
    row.replaceChildren(anchor, " ", el("span", { class: "hint" }, `${number} by `, nameOf(club, stat.author), ", ", momentOf(stat.created),
      club.isUnreadBy(stat) ? " (unread)" : ""));
  }).catch(() => row.append(el("span", { class: "hint" }, " not to be read")));
  return row;
}

/** A list that grows by `older()`, which gives the next texts and whether there are more. */
async function listView(app, title, headline, older) {
  const list = el("ol", { class: "rows texts" });
  const more = button("Older texts", () => app.try(show));
  async function show() {
    const { texts, left } = await older();
    list.append(...texts.map((text) => rowOf(app, text)));
    more.hidden = !left;
  }
  await show();
  return { name: "list", title, node: el("div", {}, heading(...headline),
    list.childElementCount === 0 ? el("p", {}, "There are none.") : list, more) };
}

/** The last texts of a conference. */
export async function lastView(app, words) {
  const conference = Number(words);
  let ceiling = 0;
  await app.club.names.ask(conference);
  return listView(app, "Last texts", ["Last texts in ", nameOf(app.club, conference)], async () => {
    const { begin, more, pairs } = await app.session.call("localToGlobalReverse", conference, ceiling, PAGE);
    ceiling = begin;
    return { texts: pairs.map(({ text }) => text).filter((text) => text !== 0).reverse(), left: more && begin > 1 };
  });
}

/** The last texts of a person, of which one may not read all. */
export async function byView(app, words) {
  const author = Number(words);
  const { session } = app;
  const [{ firstText, texts: count }] = await Promise.all([session.call("getPerson", author), app.club.names.ask(author)]);
  let below = firstText + count;
  const found = [];
  return listView(app, "Texts written", ["Texts by ", nameOf(app.club, author)], async () => {
    while (found.length < PAGE && below > firstText) {
      const first = Math.max(firstText, below - BLOCK);
      const { pairs } = await session.call("createdTexts", author, first, below - first);
      found.push(...pairs.filter(({ local }) => local < below).map(({ text }) => text).filter((text) => text !== 0).reverse());
      below = first;
    }
    return { texts: found.splice(0, PAGE), left: found.length > 0 || below > firstText };
  });
}

/** The texts that the member has marked. */
export async function marksView(app) {
  const marks = (await app.session.call("getMarks")).reverse();
  return listView(app, "Marks", ["Marked texts"], async () => {
    const texts = marks.splice(0, PAGE).map(({ text }) => text);
    return { texts, left: marks.length > 0 };
  });
}
