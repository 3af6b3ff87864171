// What this browser keeps of how the page is to be: nothing of it is secret, and nothing goes to the server.

const PREFIX = "kom-setting";
const FIRST = { keys: true, notify: false, oneWidth: false };

export function setting(name) {
  try {
    const kept = localStorage.getItem(`${PREFIX}:${name}`);
    return kept === null ? FIRST[name] : kept === "1";
  } catch {
    return FIRST[name];
  }
}

export function set(name, value) {
  try {
    localStorage.setItem(`${PREFIX}:${name}`, value ? "1" : "0");
  } catch {
    // It holds for what is shown now.
  }
}

/** The name that was last logged in with in this tab, for a reload. */
export function lastName() {
  try {
    return sessionStorage.getItem("kom-name") ?? "";
  } catch {
    return "";
  }
}

export function keepName(name) {
  try {
    if (name) sessionStorage.setItem("kom-name", name);
    else sessionStorage.removeItem("kom-name");
  } catch {
    // Then it is typed again.
  }
}
