// Messages: what was said since the login, and a line to answer.

import { draftOf } from "../club/writing.js";
import { bytesOfMessage } from "../letters.js";
import { el, field, heading } from "./dom.js";
import { finder } from "./finder.js";
import { nameOf } from "./names.js";
import { momentOf } from "./times.js";

const NOBODY_HEARS = 53;

export async function messagesView(app, words) {
  const { club } = app;
  let to = words === undefined ? null : Number(words);
  if (to) await club.names.ask(to).catch(() => undefined);
  const log = el("ul", { class: "log", "aria-live": "polite", "aria-label": "Messages since you logged in" });
  const input = el("textarea", { rows: 2, required: true });
  const receiver = el("p", { class: "receiver" });
  const left = new AbortController();

  const item = ({ sender, recipient, text, at }) => el("li", { class: sender === club.me ? "own" : null },
    el("p", { class: "meta" },
      nameOf(club, sender), " to ", recipient === 0 ? "everybody" : nameOf(club, recipient), ", ", momentOf(at)),
    el("p", { class: "said", dir: "auto" }, text));

  function show() {
    log.replaceChildren(...club.messages.map(item));
    log.scrollTop = log.scrollHeight;
  }

  function setReceiver(number) {
    to = number;
    receiver.replaceChildren("To ", number === null ? "nobody yet" : number === 0 ? "everybody" : nameOf(club, number));
  }

  async function send(event) {
    event?.preventDefault();
    const text = input.value.trim();
    if (text === "") return;
    if (to === null) {
      app.say("Say first to whom it goes.");
      return;
    }
    try {
      await app.session.call("sendMessage", to, bytesOfMessage(text));
    } catch (error) {
      app.fail(error, error.code === NOBODY_HEARS && to !== 0 ? [["Write a letter", () => writeLetter(text)]] : []);
      return;
    }
    club.keepMessage(to, text);
    input.value = "";
    show();
  }

  /** What nobody is there to hear can wait as a letter. */
  async function writeLetter(text) {
    const kind = club.names.isPerson(to) ? "letter" : "text";
    const key = `${kind}-${to}`;
    if (!club.drafts.get(key)) club.drafts.keep(key, { ...(await draftOf(club, key)), body: text });
    app.go(`write/${key}`);
  }

  input.addEventListener("keydown", (event) => {
    if (event.key === "Enter" && !event.shiftKey) send(event);
  });
  club.addEventListener("message", show, { signal: left.signal });
  setReceiver(to);
  show();
  return {
    name: "messages",
    title: "Messages",
    focus: to === null ? undefined : input,
    leave: () => left.abort(),
    node: el("div", {}, heading("Messages"),
      el("p", { class: "hint" }, "Messages since you logged in. The server keeps none."),
      log,
      el("form", { submit: send }, receiver,
        field("Message", input, "Enter sends it."),
        el("div", { class: "row" }, el("button", { type: "submit", class: "main" }, "Send"),
          el("button", { type: "button", click: () => setReceiver(0) }, "To everybody"))),
      finder(app, { label: "To somebody else", hint: "A person, or all members of a conference.", chosen: (number) => {
        setReceiver(number);
        input.focus();
      } })),
  };
}
