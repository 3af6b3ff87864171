// The page of help.

import { el, heading } from "./dom.js";
import { KEYS } from "./keys.js";

const PARTS = [
  ["Reading", [
    "The button below goes on, and says what it does. So does the space bar, once the end of a text is seen.",
    "After a text come its footnotes and comments, then what is left of the texts above it, then the next text of"
      + " the conference, then the next conference, by priority.",
    "A text counts as read once it was shown to you, in every conference that has it. “Unread again” takes that "
      + "back.",
    "Whatever else you look at, your place stays: the button goes on from the text that you read last. If you "
      + "open an unread text yourself, you go on from there, and come back to what was left.",
  ]],
  ["Writing", [
    "What you write is kept in this browser at each pause, also if you reload or close the page, until you send "
      + "it or throw it away. You find it under Drafts. On a computer of others, throw away what they shall not see.",
    "A comment goes to where the text went. “Answer in private” goes to its author and to you alone. A footnote "
      + "is an addition to a text of your own.",
    "A line that is broken stays broken. Addresses that begin with https:// become links.",
  ]],
  ["Conferences", [
    "Find a conference by the beginnings of the words of its name, and join it. Priorities say which are read "
      + "first. In a passive membership nothing is unread.",
    "“Only these are unread” helps where more has come than you will ever read.",
  ]],
  ["Messages", [
    "A message is seen at once by whoever is on, and kept nowhere. A letter, which is a text to a person, waits "
      + "until it is read.",
    "The title of the page tells how much is unread. Settings has notifications.",
  ]],
  ["If something is wrong", [
    "Where the connection goes, a bar says so, and it comes back by itself. What could not be sent is a draft "
      + "still.",
    "Your password is held by this page while it is open, for that, and is kept nowhere. After a reload you log "
      + "in again.",
    "A question mark in a text may stand for a sign that would steer what is shown.",
  ]],
];

export async function helpView() {
  return {
    name: "help",
    title: "Help",
    node: el("div", {}, heading("Help"),
      PARTS.map(([title, paragraphs]) => el("section", {}, el("h2", {}, title), paragraphs.map((words) => el("p", {}, words)))),
      el("section", {}, el("h2", {}, "Keys"),
        el("table", { class: "keys" }, el("tbody", {}, KEYS.map(([key, words]) => el("tr", {},
          el("th", { scope: "row" }, el("kbd", {}, key)), el("td", {}, words))))),
        el("p", { class: "hint" }, "Settings can turn the single letters off."))),
  };
}
