// Starts the page: one session with the server beside which the page stands, and the club over it.

import { Club } from "./club/club.js";
import { Session } from "./session.js";
import { App } from "./views/app.js";

const address = new URL("kom", location.href);
address.protocol = location.protocol === "https:" ? "wss:" : "ws:";
address.hash = "";

const session = new Session(address.href);
const club = new Club(session);
new App(session, club).start();
