// Making a conference.

import { bytesOfName } from "../letters.js";
import { el, field, heading } from "./dom.js";

export async function makeView(app) {
  const { club, session } = app;
  const name = el("input", { required: true, maxlength: 60, autocomplete: "off" });
  const closed = el("input", { type: "checkbox" });
  const secret = el("input", { type: "checkbox", change: () => {
    // What nobody sees nobody else reads.
    if (secret.checked) closed.checked = true;
  } });

  async function make(event) {
    event.preventDefault();
    await app.try(async () => {
      const type = `${closed.checked || secret.checked ? 1 : 0}0${secret.checked ? 1 : 0}00000`;
      const number = await session.call("createConference", bytesOfName(name.value.trim()), type, []);
      await club.join(number);
      app.go(`conference/${number}`);
    }, "The conference is made, and you are its first member.");
  }

  return {
    name: "make",
    title: "Make a conference",
    focus: name,
    node: el("div", {}, heading("Make a conference"),
      el("form", { submit: make },
        field("Name", name, "Letters of western Europe, 60 at most."),
        el("label", { class: "check" }, closed, " Closed: its texts are for members, whom you invite"),
        el("label", { class: "check" }, secret, " Secret: members alone see that it is there"),
        el("button", { type: "submit", class: "main" }, "Make it"))),
  };
}
