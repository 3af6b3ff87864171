// The frame around the views: which view is shown, the bar of the connection, the title, and what is told.

import { sentenceOn } from "../errors.js";
import { lastName } from "../settings.js";
import { Side } from "./conferences.js";
import { button, el, many, seldom } from "./dom.js";
import { listenToKeys } from "./keys.js";
import { loginView } from "./login.js";
import { followNames, nameOf } from "./names.js";
import { Prompt } from "./prompt.js";
import { routes } from "./routes.js";
import { forgetWrong, notify, toast } from "./toasts.js";

const SLOW = 500;
const MENU = [["", "Conferences"], ["find", "Find"], ["write/text-0", "Write"], ["messages", "Messages"],
  ["who", "Who is on"], ["marks", "Marks"], ["drafts", "Drafts"], ["settings", "Settings"], ["help", "Help"]];
const AWAY_LONG = 60_000;

const byId = (id) => document.getElementById(id);

export class App {
  #view = { title: "Log in" };
  #shown = 0;
  #entered = false;
  #newMessages = 0;
  #barTimer = 0;
  #hiddenAt = 0;
  /** The address of the view that is shown, and how far down each was looked at. */
  #place = "";
  #scrolls = new Map();

  constructor(session, club) {
    this.session = session;
    this.club = club;
  }

  start() {
    const { session, club } = this;
    this.prompt = new Prompt(this);
    this.side = new Side(this);
    followNames(club);
    listenToKeys(this);
    byId("skip").addEventListener("click", () => byId("main").focus());
    byId("menu-button").addEventListener("click", () => this.#openMenu(!byId("menu").classList.contains("open")));
    this.retitle = seldom(() => this.#retitle());
    session.addEventListener("state", () => this.#stateChanged());
    club.addEventListener("entered", () => this.#enteredClub());
    club.addEventListener("unread", () => this.retitle());
    club.addEventListener("message", ({ detail }) => this.#takeMessage(detail));
    club.addEventListener("text", ({ detail }) => this.#takeText(detail));
    club.addEventListener("joined", ({ detail }) => this.#takeMembership(detail));
    window.addEventListener("hashchange", () => this.show());
    window.addEventListener("online", () => session.state === "gone" && session.connect());
    document.addEventListener("visibilitychange", () => this.#seen());
    setInterval(() => this.#showBusy(), SLOW / 2);
    this.#showLogin();
  }

  // Where one is.

  /** Goes to another view. */
  go(place) {
    if (location.hash === `#/${place}` || (place === "" && location.hash === "")) this.show();
    else location.hash = `#/${place}`;
  }

  /** Shows the view of the address. */
  async show({ focus = true } = {}) {
    if (!this.#entered) return;
    this.#openMenu(false);
    const [name, word] = location.hash.replace(/^#\/?/, "").split("/");
    const wanted = Object.hasOwn(routes, name) ? routes[name] : routes[""];
    const route = wanted.takes.test(word ?? "") ? wanted.view : routes[""].view;
    this.#shown += 1;
    const shown = this.#shown;
    let view;
    try {
      view = await route(this, word || undefined);
    } catch (error) {
      if (shown !== this.#shown) return;
      view = { title: "Not shown", node: el("div", {},
        el("h1", { tabindex: "-1" }, "Not shown"),
        el("p", {}, sentenceOn(error, (number) => this.nameWords(number))),
        button("Back", () => history.back())), back: () => this.show() };
    }
    if (shown !== this.#shown) return;
    this.#put(view, focus);
  }

  #put(view, focus) {
    this.#view.leave?.();
    this.#view = view;
    const main = byId("main");
    this.#scrolls.set(this.#place, window.scrollY);
    this.#place = location.hash;
    document.body.className = view.name ?? "";
    main.replaceChildren(view.node);
    for (const each of document.querySelectorAll("#menu a")) {
      if (each.getAttribute("href") === (location.hash || "#/")) each.setAttribute("aria-current", "page");
      else each.removeAttribute("aria-current");
    }
    if (focus) {
      forgetWrong();
      (view.focus ?? main.querySelector("h1") ?? main).focus({ preventScroll: true });
      // Whoever goes back finds the place where they were.
      window.scrollTo(0, history.state?.seen ? this.#scrolls.get(this.#place) ?? 0 : 0);
      history.replaceState({ seen: true }, "");
    }
    view.shown?.();
    this.retitle();
    this.prompt.update();
  }

  /** The view that is shown: what keys act on. */
  get view() {
    return this.#view;
  }

  #openMenu(open) {
    byId("menu").classList.toggle("open", open);
    byId("menu-button").setAttribute("aria-expanded", String(open));
  }

  // What is told.

  /** The name of a conference or a person in a sentence. */
  nameWords(number) {
    return this.club.names.known(number) ?? `conference ${number}`;
  }

  say(words, options) {
    return toast(words, options);
  }

  /** Says words to those who hear the page. */
  announce(words) {
    byId("announced").textContent = words;
  }

  /** Tells what went wrong. */
  fail(error, actions = []) {
    toast(sentenceOn(error, (number) => this.nameWords(number)), { wrong: true, stays: true, actions });
  }

  /** Does something that may fail, and tells if it did: whether it went well. */
  async try(act, done) {
    try {
      await act();
    } catch (error) {
      this.fail(error);
      return false;
    }
    if (done) this.say(done);
    return true;
  }

  #takeMessage(message) {
    const { club } = this;
    if (message.sender === club.me) return;
    const to = message.recipient === 0 ? "everybody" : message.recipient === club.me ? "you" : null;
    const answer = message.recipient === 0 || message.recipient === club.me ? message.sender : message.recipient;
    const from = el("p", { class: "from" }, nameOf(club, message.sender), " to ", to ?? nameOf(club, message.recipient), ":");
    if (this.#view.name !== "messages") {
      this.say([from, el("p", { class: "said", dir: "auto" }, message.text)],
        { stays: true, actions: [["Answer", () => this.go(`messages/${answer}`)]] });
    }
    if (document.hidden) this.#newMessages += 1;
    club.names.ask(message.sender).catch(() => undefined).then(() => {
      notify(`Message from ${this.nameWords(message.sender)}`, message.text, "message", () => this.go("messages"));
    });
    this.retitle();
  }

  #takeText({ text, stat }) {
    const { club } = this;
    if (stat.author === club.me) return;
    this.#view.tookText?.(text, stat);
    if (!club.isUnreadBy(stat)) return;
    club.names.ask(stat.author).catch(() => undefined).then(() => {
      if (!document.hidden) this.announce(`New text by ${this.nameWords(stat.author)}. ${many(club.unread, "unread text")}.`);
      notify(`New text by ${this.nameWords(stat.author)}`, `${many(club.unread, "unread text")}.`, "text", () => this.go(""));
    });
  }

  #takeMembership(conference) {
    if (!this.club.membership(conference)?.invitation) return;
    this.say(["You are invited to ", nameOf(this.club, conference), "."],
      { stays: true, actions: [["Look at it", () => this.go(`conference/${conference}`)]] });
  }

  #retitle() {
    const count = this.#entered ? this.club.unread : 0;
    const marks = [this.#newMessages > 0 ? `✉${this.#newMessages}` : "", count > 0 ? `(${count})` : ""];
    document.title = [...marks, `${this.#view.title} – LysKOM`].filter((each) => each !== "").join(" ");
  }

  #seen() {
    if (document.hidden) {
      this.#hiddenAt = Date.now();
      return;
    }
    this.#newMessages = 0;
    this.retitle();
    this.#view.seen?.();
    if (this.session.state === "gone") this.session.connect();
    // Meanwhile the member may have read elsewhere.
    else if (this.#entered && Date.now() - this.#hiddenAt > AWAY_LONG) this.club.refresh();
  }

  // The connection.

  #stateChanged() {
    const { state } = this.session;
    if (state === "stranger" && this.#view.name !== "login") this.#showLogin();
    clearInterval(this.#barTimer);
    const bar = byId("bar");
    if (state === "member" || state === "stranger") {
      bar.hidden = true;
      return;
    }
    const words = el("span", {}, this.#stateWords());
    const again = button("Try now", () => this.session.connect(), { hidden: state !== "gone" });
    bar.replaceChildren(words, again);
    // The first connection is told of only where it takes its time.
    bar.hidden = state === "connecting" && !this.#entered;
    if (state === "gone") this.#barTimer = setInterval(() => words.replaceChildren(this.#stateWords()), 1000);
  }

  #stateWords() {
    const { state, nextTry } = this.session;
    if (state === "full") return "The server does not answer yet. It may have no free place. Waiting…";
    if (state === "connecting") return "Connecting to the server…";
    const seconds = Math.max(0, Math.ceil((nextTry - Date.now()) / 1000));
    const why = this.session.noPlace
      ? "The server has no place free, or does not serve just now." : "The connection to the server is gone.";
    return `${why} It is tried again in ${many(seconds, "second")}. Your drafts are kept.`;
  }

  #showLogin() {
    this.#entered = false;
    this.#shown += 1;
    for (const id of ["conferences", "prompt", "menu", "menu-button"]) byId(id).hidden = true;
    byId("toasts").replaceChildren();
    this.#put(loginView(this, lastName()), true);
  }

  #enteredClub() {
    const first = !this.#entered;
    this.#entered = true;
    for (const id of ["conferences", "prompt", "menu", "menu-button"]) byId(id).hidden = false;
    if (!first) {
      this.say("The connection is back.");
      this.#view.back?.();
      this.prompt.update();
      return;
    }
    byId("menu").replaceChildren(
      ...MENU.map(([place, words]) => el("a", { href: `#/${place}` }, words)),
      el("span", { class: "who" }, nameOf(this.club, this.club.me)),
      button("Log out", () => this.logout(), { class: "quiet" }));
    this.show();
  }

  async logout() {
    await this.session.logout();
    location.hash = "#/";
  }

  /** Shows that something is waited for, once that takes a while. */
  #showBusy() {
    const busy = byId("busy");
    const { progress } = this.club;
    if (this.session.waiting === 0 && !progress) {
      this.busySince = 0;
      busy.hidden = true;
      return;
    }
    this.busySince ||= Date.now();
    busy.hidden = Date.now() - this.busySince < SLOW || this.session.state === "gone";
    if (progress) {
      busy.setAttribute("aria-valuemax", progress.all);
      busy.setAttribute("aria-valuenow", progress.done);
      busy.style.setProperty("--done", `${(100 * progress.done) / Math.max(progress.all, 1)}%`);
    } else {
      busy.removeAttribute("aria-valuenow");
      busy.style.removeProperty("--done");
    }
    busy.title = progress ? `${progress.what}: ${progress.done} of ${progress.all}` : "Waiting for the server";
  }
}
