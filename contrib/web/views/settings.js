// What a member sets: the password at the club, and how this browser shows it.

import { bytesOfName } from "../letters.js";
import { set, setting } from "../settings.js";
import { el, field, heading, link } from "./dom.js";

const UNREAD_IS_SECRET = 0;

function check(name, words, changed) {
  const box = el("input", { type: "checkbox", change: async () => {
    if (changed && !(await changed(box.checked))) box.checked = false;
    set(name, box.checked);
  } });
  box.checked = setting(name);
  return el("label", { class: "check" }, box, ` ${words}`);
}

function passwordForm(app) {
  const old = el("input", { type: "password", autocomplete: "current-password" });
  const now = el("input", { type: "password", autocomplete: "new-password", required: true });
  const again = el("input", { type: "password", autocomplete: "new-password", required: true });
  return el("form", { submit: async (event) => {
    event.preventDefault();
    if (now.value !== again.value) {
      app.say("The new passwords are not the same.", { wrong: true });
      return;
    }
    const { club, session } = app;
    await app.try(async () => {
      const bytes = bytesOfName(now.value);
      await session.call("setPassword", club.me, bytesOfName(old.value), bytes);
      session.changePassword(bytes);
      for (const input of [old, now, again]) input.value = "";
    }, "Your password is another now.");
  } },
    field("Your password now", old), field("The new password", now), field("The new password again", again),
    el("button", { type: "submit" }, "Change the password"));
}

/** What others see of the member. */
async function ownForm(app) {
  const { club, session } = app;
  const person = await session.call("getPerson", club.me);
  const name = el("input", { required: true, maxlength: 60, value: club.names.known(club.me), autocomplete: "off" });
  const hidden = el("input", { type: "checkbox", change: () => app.try(
    () => session.call("setPersonFlags", club.me, `${hidden.checked ? 1 : 0}${person.flags.slice(1)}`), "It is set.") });
  hidden.checked = person.flags[UNREAD_IS_SECRET] === "1";
  return el("form", { submit: (event) => {
    event.preventDefault();
    app.try(() => session.call("changeName", club.me, bytesOfName(name.value.trim())), "Your name is another now.");
  } },
    field("Your name", name), el("button", { type: "submit" }, "Change the name"),
    el("label", { class: "check" }, hidden, " Others do not see what I have read"),
    el("p", {}, link(`person/${club.me}`, "Your presentation and what others see of you")));
}

/** Asks the browser whether it lets the page notify. */
async function allowed(app, on) {
  if (!on) return true;
  if (!globalThis.Notification) {
    app.say("This browser has no notifications.");
    return false;
  }
  const answer = await Notification.requestPermission();
  if (answer !== "granted") app.say("This browser does not allow notifications from here.");
  return answer === "granted";
}

export async function settingsView(app) {
  return {
    name: "settings",
    title: "Settings",
    node: el("div", {}, heading("Settings"),
      el("section", { "aria-labelledby": "of-browser" },
        el("h2", { id: "of-browser" }, "In this browser"),
        check("notify", "Notify me of new texts and messages while I look at something else", (on) => allowed(app, on)),
        check("keys", "Single letters are keys (see Help)"),
        check("oneWidth", "Show texts in letters of one width")),
      el("section", { "aria-labelledby": "of-password" }, el("h2", { id: "of-password" }, "Password"), passwordForm(app)),
      el("section", { "aria-labelledby": "of-member" }, el("h2", { id: "of-member" }, "At the club"), await ownForm(app))),
  };
}
