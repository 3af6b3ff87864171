// The way in: a name or a number and a password; or a new member.

import { bytesOfName, nameOf } from "../letters.js";
import { sentenceOn } from "../errors.js";
import { keepName } from "../settings.js";
import { button, el, field, heading } from "./dom.js";

const NOT_ALLOWED = 12;

/** The persons that a name or a number stands for. */
async function personsOf(app, name) {
  if (/^\d+$/.test(name)) return [{ number: Number(name), name: `person ${name}` }];
  const found = await app.session.call("lookUp", bytesOfName(name), true, false);
  const persons = found.map((each) => ({ number: each.number, name: nameOf(each.name) }));
  const exact = persons.filter((each) => each.name.toLowerCase() === name.toLowerCase());
  return exact.length > 0 ? exact : persons;
}

export function loginView(app, known) {
  const name = el("input", { name: "name", autocomplete: "username", required: true, value: known, spellcheck: "false",
    autocapitalize: "none" });
  const password = el("input", { name: "password", type: "password", autocomplete: "current-password" });
  const said = el("p", { class: "wrong", role: "alert" });
  const choice = el("div", { class: "choice" });
  const submit = el("button", { type: "submit", class: "main" }, "Log in");

  async function enter({ number, name: full }) {
    choice.replaceChildren();
    said.textContent = "";
    submit.disabled = true;
    try {
      await app.session.ready();
      await app.session.login(number, bytesOfName(password.value));
      keepName(name.value.trim());
      password.value = "";
    } catch (error) {
      said.textContent = error.code === 4 ? `That is not the password of ${full}.` : sentenceOn(error);
      password.select();
    } finally {
      submit.disabled = false;
    }
  }

  async function look(event) {
    event.preventDefault();
    said.textContent = "";
    choice.replaceChildren();
    try {
      await app.session.ready();
      const persons = await personsOf(app, name.value.trim());
      if (persons.length === 1) await enter(persons[0]);
      else if (persons.length === 0) said.textContent = "Nobody here has that name.";
      else {
        choice.append(el("p", { id: "which" }, `${persons.length} persons have such a name. Who are you?`),
          el("div", { role: "group", "aria-labelledby": "which" },
            persons.slice(0, 30).map((person) => button(person.name, () => {
              name.value = person.name;
              enter(person);
            }))));
        choice.querySelector("button").focus();
      }
    } catch (error) {
      said.textContent = sentenceOn(error);
    }
  }

  const node = el("div", { class: "login" },
    heading("Log in"),
    el("form", { submit: look },
      field("Name or number", name, "Parts of your name will do, as “an be” for Anna Berg."),
      field("Password", password, "It is kept nowhere but in this page while it is open."),
      said, choice, submit),
    newMember(app, name));
  return { name: "login", title: "Log in", node, focus: known ? password : name };
}

/** A person that is not there yet, where the club lets people in by themselves. */
function newMember(app, loginName) {
  const name = el("input", { autocomplete: "off", required: true, maxlength: "60" });
  const password = el("input", { type: "password", autocomplete: "new-password", required: true });
  const again = el("input", { type: "password", autocomplete: "new-password", required: true });
  const said = el("p", { class: "wrong", role: "alert" });

  async function make(event) {
    event.preventDefault();
    said.textContent = "";
    if (password.value !== again.value) {
      said.textContent = "The passwords are not the same.";
      return;
    }
    try {
      await app.session.ready();
      const bytes = bytesOfName(password.value);
      const number = await app.session.call("createPerson", bytesOfName(name.value.trim()), bytes, "00000000", []);
      keepName(name.value.trim());
      loginName.value = name.value.trim();
      await app.session.login(number, bytes);
    } catch (error) {
      said.textContent = error.code === NOT_ALLOWED
        ? "This club makes its members itself. Ask who keeps it." : sentenceOn(error);
    }
  }

  return el("details", {},
    el("summary", {}, "I am new here"),
    el("form", { submit: make },
      field("Your name", name, "As others shall see it. Letters of western Europe, 60 at most."),
      field("A password", password), field("The password again", again),
      said, el("button", { type: "submit" }, "Become a member")));
}
