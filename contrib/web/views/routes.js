// The views by the first word of their address, and what may follow it there.

import { composeView, draftsView } from "./compose.js";
import { conferenceView } from "./conference.js";
import { findView } from "./find.js";
import { helpView } from "./help.js";
import { byView, lastView, marksView } from "./lists.js";
import { makeView } from "./make.js";
import { membersView } from "./members.js";
import { messagesView } from "./messages.js";
import { newsView } from "./news.js";
import { personView } from "./person.js";
import { settingsView } from "./settings.js";
import { textView } from "./text.js";
import { whoView } from "./who.js";

const NOTHING = /^$/;
const NUMBER = /^\d{1,10}$/;
const MAYBE_NUMBER = /^\d{0,10}$/;
const DRAFT = /^(text|letter|comment|footnote|reply|presentation|notice)-\d{1,10}$/;

const at = (view, takes = NOTHING) => ({ view, takes });

export const routes = {
  "": at(newsView),
  text: at(textView, NUMBER),
  write: at(composeView, DRAFT),
  drafts: at(draftsView),
  conference: at(conferenceView, NUMBER),
  person: at(personView, NUMBER),
  members: at(membersView, NUMBER),
  last: at(lastView, NUMBER),
  by: at(byView, NUMBER),
  marks: at(marksView),
  find: at(findView),
  make: at(makeView),
  who: at(whoView),
  messages: at(messagesView, MAYBE_NUMBER),
  settings: at(settingsView),
  help: at(helpView),
};
