// Writing: recipients, a subject, the text, a preview; each change is kept as a draft until it is sent.

import { Unsure, draftOf, wasWritten, write } from "../club/writing.js";
import { sentenceOn } from "../errors.js";
import { shown, shownInLine } from "../letters.js";
import { BLIND_COPY, COPY, TO } from "../protocol/records.js";
import { bodyOf } from "./body.js";
import { button, el, field, heading, letters, link } from "./dom.js";
import { finder } from "./finder.js";
import { nameOf } from "./names.js";

const TITLES = {
  text: "Write a text", letter: "Write a private letter", comment: "Comment on text", footnote: "Footnote to text",
  reply: "Answer in private to text", presentation: "Write a presentation", notice: "Write a notice",
};
const KINDS = [[TO, "To"], [COPY, "Copy to"], [BLIND_COPY, "Hidden copy to"]];

/** The text that is answered, to look at while one writes. */
function answered(app, numbers) {
  return numbers.map((number) => {
    const place = el("div", { class: "quoted" });
    app.club.texts.load(number).then((text) => {
      const head = el("p", { class: "meta" }, nameOf(app.club, text.stat.author), ": ", letters(text.subject));
      place.append(head, bodyOf(text.body));
    }).catch((error) => place.append(sentenceOn(error)));
    return el("details", { open: true }, el("summary", {}, `Text ${number}, which you answer`), place);
  });
}

/** The recipients of a draft, which can be changed. */
function recipients(app, draft, changed) {
  const list = el("ul", { class: "recipients" });
  const summary = el("span", {});
  const kindWords = (tag) => KINDS.find(([each]) => each === tag)[1];
  const summarize = () => summary.replaceChildren(
    ...draft.to.flatMap(({ number, tag }, place) => [place > 0 ? "; " : "", `${kindWords(tag)} `, nameOf(app.club, number)]),
    draft.to.length === 0 ? "To nobody yet" : "");
  const show = () => {
    summarize();
    list.replaceChildren(...draft.to.map(item));
  };
  const item = (each) => {
    const kind = el("select", { "aria-label": "How it goes to them", change: () => {
      each.tag = Number(kind.value);
      summarize();
      changed();
    } }, KINDS.map(([tag, words]) => el("option", { value: tag }, words)));
    kind.value = String(each.tag);
    return el("li", {}, kind, " ", nameOf(app.club, each.number), " ", button("Leave out", () => {
      draft.to.splice(draft.to.indexOf(each), 1);
      show();
      changed();
    }, { class: "quiet" }));
  };
  show();
  const find = finder(app, { label: "Add a conference or a person", words: (name) => `Add ${name}`, chosen: (number) => {
    if (!draft.to.some((each) => each.number === number)) draft.to.push({ number, tag: TO });
    show();
    changed();
  } });
  return { node: el("details", { open: draft.to.length === 0 }, el("summary", {}, summary), list, find), show };
}

export async function composeView(app, key) {
  const { club } = app;
  const [kind, words] = key.split("-");
  const kept = club.drafts.get(key);
  const draft = kept ?? await draftOf(club, key);
  const subject = el("input", { value: draft.subject, autocomplete: "off", spellcheck: "true" });
  const body = el("textarea", { rows: 14, value: draft.body, spellcheck: "true" });
  const status = el("p", { class: "hint", role: "status" }, kept ? "This draft was kept. Go on with it." : "");
  const preview = el("section", { class: "preview", "aria-label": "Preview", hidden: true });
  const send = el("button", { type: "submit", class: "main" }, "Send", el("kbd", {}, "Ctrl Enter"));
  let timer = 0;
  let done = false;

  function keep() {
    clearTimeout(timer);
    timer = 0;
    if (done) return;
    draft.subject = subject.value;
    draft.body = body.value;
    status.textContent = club.drafts.keep(key, draft) ? "The draft is kept in this browser." : "This browser keeps no drafts.";
  }

  function changed() {
    if (!preview.hidden) showPreview();
    timer ||= setTimeout(keep, 300);
  }

  function showPreview() {
    preview.replaceChildren(
      el("h2", {}, subject.value === "" ? "(no subject)" : letters(shownInLine(subject.value.normalize("NFC")))),
      bodyOf(shown(body.value.normalize("NFC"))));
  }

  async function sent(number) {
    done = true;
    club.drafts.remove(key);
    if (kind === "presentation" || kind === "notice") {
      await app.try(() => app.session.call(kind === "presentation" ? "setPresentation" : "setNotice", Number(words), number));
      app.go(club.names.isPerson(Number(words)) ? `person/${words}` : `conference/${words}`);
    } else if (draft.comments.length + draft.footnotes.length > 0) {
      app.go(`text/${[...draft.comments, ...draft.footnotes][0]}`);
    } else {
      app.go(`text/${number}`);
    }
    app.say(`Text ${number} is written.`, { actions: [["Show it", () => app.go(`text/${number}`)]] });
  }

  /** The connection went: whether the text was written is looked up when it is back. */
  function lookUpLater(attempt) {
    status.textContent = "The connection went while the text was sent. Whether it was written is looked up when it is back.";
    club.addEventListener("entered", async () => {
      try {
        const number = await wasWritten(club, attempt);
        if (number !== 0) await sent(number);
        else {
          status.textContent = "The text was not written. Send it again.";
          send.disabled = false;
        }
      } catch (error) {
        if (error.code === undefined) lookUpLater(attempt);
        else app.fail(error);
      }
    }, { once: true });
  }

  async function submit(event) {
    event?.preventDefault();
    if (send.disabled) return;
    keep();
    if (subject.value.trim() === "" && body.value.trim() === "") {
      status.textContent = "There is nothing written yet.";
      return;
    }
    if (draft.to.length === 0) {
      status.textContent = "It goes to nobody yet: add a conference or a person.";
      return;
    }
    send.disabled = true;
    try {
      await sent(await write(club, draft));
    } catch (error) {
      if (error instanceof Unsure) lookUpLater(error.attempt);
      else {
        send.disabled = false;
        status.textContent = "";
        app.fail(error);
      }
    }
  }

  const to = recipients(app, draft, changed);
  const node = el("div", { class: "compose" },
    heading(TITLES[kind] ?? TITLES.text, ["comment", "footnote", "reply"].includes(kind) ? ` ${words}` : ""),
    answered(app, [...draft.comments, ...draft.footnotes]),
    el("form", { submit, input: (event) => event.target.type !== "search" && changed() },
      to.node, field("Subject", subject), field("Text", body),
      el("div", { class: "row" }, send,
        button("Preview", ({ target }) => {
          preview.hidden = !preview.hidden;
          target.setAttribute("aria-pressed", String(!preview.hidden));
          if (!preview.hidden) showPreview();
        }, { "aria-pressed": "false" }),
        button("Throw away", () => {
          done = true;
          const thrown = { ...draft, subject: subject.value, body: body.value };
          club.drafts.remove(key);
          history.back();
          app.say("The draft is thrown away.", { actions: [["Have it back", () => {
            club.drafts.keep(key, thrown);
            app.go(`write/${key}`);
          }]] });
        })),
      status),
    preview,
    kind === "text" || kind === "letter" ? el("p", { class: "hint" }, link("drafts", "Other drafts")) : null);

  node.addEventListener("keydown", (event) => {
    if (event.key === "Enter" && (event.ctrlKey || event.metaKey)) submit();
  });
  const otherTab = ({ detail }) => {
    if (detail !== key || done) return;
    const other = club.drafts.get(key);
    if (other === null) {
      status.textContent = "This draft was sent or thrown away in another tab.";
      return;
    }
    Object.assign(draft, other);
    subject.value = other.subject;
    body.value = other.body;
    to.show();
    status.textContent = "This draft is being changed in another tab.";
  };
  club.drafts.addEventListener("draft", otherTab);
  const leaving = () => timer && keep();
  window.addEventListener("pagehide", leaving);
  return {
    name: "writing",
    title: TITLES[kind] ?? "Write",
    node,
    focus: draft.subject === "" ? (draft.to.length === 0 ? node.querySelector(".finder input") : subject) : body,
    leave() {
      leaving();
      window.removeEventListener("pagehide", leaving);
      club.drafts.removeEventListener("draft", otherTab);
    },
  };
}

/** All drafts of the member. */
export async function draftsView(app) {
  const { drafts } = app.club;
  const keys = drafts.keys();
  const row = (key) => {
    const draft = drafts.get(key);
    const item = el("li", {},
      link(`write/${key}`, letters(shownInLine(draft.subject) || "(no subject)")), " ",
      el("span", { class: "hint" }, `${TITLES[key.split("-")[0]] ?? ""}, ${draft.body.length} letters`), " ",
      button("Throw away", () => {
        drafts.remove(key);
        item.remove();
      }, { class: "quiet" }));
    return item;
  };
  return { name: "list", title: "Drafts", node: el("div", {}, heading("Drafts"),
    keys.length === 0 ? el("p", {}, "There are none.") : el("ul", { class: "rows" }, keys.map(row)),
    el("p", { class: "hint" }, "Drafts stay in this browser, for whoever uses it, until they are sent or thrown away.")) };
}
