// One text: its head, its letters, what can be done with it, and the conversation that it stands in.

import { recipientsOf } from "../club/club.js";
import { BLIND_COPY, COMMENT_TO, COPY, FOOTNOTE_TO, TO } from "../protocol/records.js";
import { bodyOf } from "./body.js";
import { Conversation } from "./conversation.js";
import { button, el, letters, link, many } from "./dom.js";
import { finder } from "./finder.js";
import { nameLink } from "./names.js";
import { momentOf } from "./times.js";

export const TO_WORDS = { [TO]: "To", [COPY]: "Copy to", [BLIND_COPY]: "Hidden copy to" };

/** A text by its number, with its author where that is known. */
export function textLink(app, number) {
  const by = el("span", {});
  app.club.texts.statOrNull(number).then((stat) => {
    if (stat) by.append(" by ", nameLink(app.club, stat.author));
  }).catch(() => undefined);
  return [link(`text/${number}`, `text ${number}`), by];
}

/** The lines above a text: to whom it goes, and what it answers. */
export function linesOf(app, stat) {
  const line = (words, ...what) => el("li", {}, el("span", { class: "label" }, words), " ", ...what);
  const answers = (tag) => stat.misc.filter((info) => info.tag === tag).map(({ value }) => value);
  return [
    ...recipientsOf(stat).map(({ conference, tag }) => line(TO_WORDS[tag], nameLink(app.club, conference))),
    ...answers(COMMENT_TO).map((text) => line("Comment to", ...textLink(app, text))),
    ...answers(FOOTNOTE_TO).map((text) => line("Footnote to", ...textLink(app, text))),
  ];
}

/** What can be done with the text of a view: by keys and by buttons. */
function actsOn(app, text, again) {
  const { club } = app;
  const { number, stat } = text;
  const own = stat.author === club.me;
  return {
    comment: () => app.go(`write/comment-${number}`),
    footnote: own ? () => app.go(`write/footnote-${number}`) : null,
    reply: stat.author === 0 ? null : () => app.go(`write/reply-${number}`),
    above: () => {
      const answered = stat.misc.find(({ tag }) => tag === COMMENT_TO || tag === FOOTNOTE_TO);
      if (answered) app.go(`text/${answered.value}`);
      else app.say("It answers no other text.");
    },
    skip: () => app.try(async () => {
      const count = await club.skipBelow(number);
      club.order.leaveBranch();
      app.say(`${many(count, "text")} below this one ${count === 1 ? "is" : "are"} passed over.`);
      again();
    }),
    mark: () => {
      const on = !club.marked.has(number);
      const done = on ? `Text ${number} is marked. You find it under Marks.` : `Text ${number} is not marked any more.`;
      return app.try(() => club.setMark(number, on).then(again), done);
    },
    unread: () => app.try(() => club.markUnread(number), `Text ${number} is unread again.`),
    sendOn: () => askToSendOn(app, number, again),
    remove: own ? () => askToDelete(app, number) : null,
  };
}

function askToDelete(app, number) {
  const close = ask(`Delete text ${number}? It goes for all, and cannot be had back.`, el("div", { class: "row" },
    button("Delete it", async () => {
      close();
      if (await app.try(() => app.session.call("deleteText", number), `Text ${number} is deleted.`)) {
        app.club.texts.forget(number);
        app.show();
      }
    }, { class: "danger" }),
    button("Keep it", () => close())));
}

/** One more recipient of a text. */
function askToSendOn(app, number, again) {
  const close = ask(`To whom is text ${number} to go, too?`,
    finder(app, { label: "A conference or a person", chosen: async (to, name) => {
      close();
      if (await app.try(() => app.session.call("addRecipient", number, to, TO), `${name} has text ${number} now.`)) {
        app.club.texts.forgetStat(number);
        again();
      }
    } }),
    button("Leave it", () => close()));
}

/** Asks something above the page; what it gives closes that. */
function ask(words, ...answers) {
  const dialog = el("dialog", { "aria-labelledby": "asked" }, el("p", { id: "asked" }, words), ...answers);
  dialog.addEventListener("close", () => dialog.remove());
  document.body.append(dialog);
  dialog.showModal();
  return () => dialog.close();
}

/** A text is read once it has been shown to somebody who looks. */
function readIt(club, text) {
  if (!club.isUnreadBy(text.stat)) return;
  if (club.order.last !== text.number) club.order.chose(text.number);
  club.markRead(text.stat);
}

export async function textView(app, words) {
  const number = Number(words);
  const { club } = app;
  const before = club.order.last;
  club.texts.refresh(number);
  const text = await club.texts.load(number);
  const { stat } = text;
  const reviewed = !club.isUnreadBy(stat) && before !== number && before !== 0;
  const marked = club.marked.has(number);
  const again = () => app.show({ focus: false });
  const acts = actsOn(app, text, again);

  const act = (label, name, key) => acts[name] && button([label, key ? el("kbd", {}, key) : null], acts[name]);
  const conversation = new Conversation(app, number);
  const article = el("article", { "aria-labelledby": "subject" },
    reviewed ? el("p", { class: "reviewed" },
      "Looked at again. ", link(`text/${before}`, `Back to text ${before}`), ", where you read.") : null,
    el("header", {},
      el("h1", { tabindex: "-1", id: "subject" }, text.subject === "" ? "(no subject)" : letters(text.subject)),
      el("p", { class: "meta" },
        `Text ${number} by `, nameLink(club, stat.author), ", ", momentOf(stat.created), `, ${many(stat.lines, "line")}`,
        stat.marks > 0 ? `, ${many(stat.marks, "mark")}` : "", marked ? ", marked by you" : ""),
      el("ul", { class: "links" }, linesOf(app, stat))),
    bodyOf(text.body),
    el("footer", { class: "acts", role: "group", "aria-label": `Text ${number}` },
      act("Comment", "comment", "c"), act("Answer in private", "reply", "p"),
      act(marked ? "Drop the mark" : "Mark", "mark", "m"),
      el("details", {}, el("summary", {}, "More"), el("div", { class: "acts" },
        act("Footnote", "footnote", "f"), act("What it answers", "above", "a"), act("Unread again", "unread", "u"),
        act("Pass over its comments", "skip", "j"), act("Send it on", "sendOn"), act("Delete", "remove")))));

  const read = () => {
    if (!document.hidden) readIt(club, text);
  };
  return {
    name: "reading",
    title: text.subject || `Text ${number}`,
    node: el("div", { class: "reading" }, article, conversation.node),
    acts,
    shown() {
      read();
      conversation.load().catch((error) => error.code !== undefined && app.fail(error));
    },
    seen: read,
    tookText: (_, told) => conversation.tookText(told),
    back: again,
    leave: () => conversation.leave(),
  };
}
