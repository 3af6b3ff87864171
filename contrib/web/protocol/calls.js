// Each call: its number, what is sent with it, and what it is answered.

import { auxItemInput, conference, dynamicSession, found, info, mark, member, membership, miscInfo, person,
  readRange, staticSession, textMapping, textStat, time, uconference, version } from "./records.js";
import { array, bits, byte, integer, list, nothing, string, truth } from "./shapes.js";
import { Reader, Writer } from "./tokens.js";

const call = (number, sent, answer = nothing) => ({ number, sent, answer });
/** The type of a conference, whole or its first half. */
const conferenceType = bits(4, 8);

export const calls = {
  logout: call(1, []),
  changeConference: call(2, [integer]),
  changeName: call(3, [integer, string]),
  changeWhatIAmDoing: call(4, [string]),
  setPrivileges: call(7, [integer, bits(16)]),
  setPassword: call(8, [integer, string, string]),
  deleteConference: call(11, [integer]),
  removeMember: call(15, [integer, integer]),
  setPresentation: call(16, [integer, integer]),
  setNotice: call(17, [integer, integer]),
  setSupervisor: call(18, [integer, integer]),
  setSubmitters: call(19, [integer, integer]),
  setSuperConference: call(20, [integer, integer]),
  setType: call(21, [integer, conferenceType]),
  setNice: call(22, [integer, integer]),
  getMarks: call(23, [], array(mark)),
  getText: call(25, [integer, integer, integer], string),
  markAsRead: call(27, [integer, list(integer)]),
  deleteText: call(29, [integer]),
  addRecipient: call(30, [integer, integer, integer]),
  removeRecipient: call(31, [integer, integer]),
  addComment: call(32, [integer, integer]),
  removeComment: call(33, [integer, integer]),
  getTime: call(35, [], time),
  addFootnote: call(37, [integer, integer]),
  removeFootnote: call(38, [integer, integer]),
  setUnread: call(40, [integer, integer]),
  enable: call(42, [byte]),
  sync: call(43, []),
  shutDown: call(44, [integer]),
  getPerson: call(49, [integer], person),
  getUnread: call(52, [integer], array(integer)),
  sendMessage: call(53, [integer, string]),
  disconnect: call(55, [integer]),
  whoAmI: call(56, [], integer),
  setUserArea: call(57, [integer, integer]),
  findNextText: call(60, [integer], integer),
  findPreviousText: call(61, [integer], integer),
  login: call(62, [integer, string, truth]),
  setClientVersion: call(69, [string, string]),
  getClientName: call(70, [integer], string),
  getClientVersion: call(71, [integer], string),
  markText: call(72, [integer, byte]),
  unmarkText: call(73, [integer]),
  getVersion: call(75, [], version),
  lookUp: call(76, [string, truth, truth], array(found)),
  setLastRead: call(77, [integer, integer]),
  getUConference: call(78, [integer], uconference),
  acceptMessages: call(80, [list(integer)]),
  acceptedMessages: call(81, [], array(integer)),
  userActive: call(82, []),
  whoIsOn: call(83, [truth, truth, integer], array(dynamicSession)),
  getSession: call(84, [integer], staticSession),
  getCollation: call(85, [], string),
  createText: call(86, [string, list(miscInfo), list(auxItemInput)], integer),
  createAnonymousText: call(87, [string, list(miscInfo), list(auxItemInput)], integer),
  createConference: call(88, [string, conferenceType, list(auxItemInput)], integer),
  createPerson: call(89, [string, string, bits(8), list(auxItemInput)], integer),
  getTextStat: call(90, [integer], textStat),
  getConference: call(91, [integer], conference),
  changeTextItems: call(92, [integer, list(integer), list(auxItemInput)]),
  changeConferenceItems: call(93, [integer, list(integer), list(auxItemInput)]),
  getInfo: call(94, [], info),
  getAuxTags: call(96, [], array(integer)),
  setExpire: call(97, [integer, integer]),
  addMember: call(100, [integer, integer, byte, integer, bits(8)]),
  getMembers: call(101, [integer, integer, integer], array(member)),
  setMembershipType: call(102, [integer, integer, bits(8)]),
  localToGlobal: call(103, [integer, integer, integer], textMapping),
  createdTexts: call(104, [integer, integer, integer], textMapping),
  setKeepCommented: call(105, [integer, integer]),
  setPersonFlags: call(106, [integer, bits(8)]),
  queryRead: call(107, [integer, integer, truth, integer], membership),
  getMemberships: call(108, [integer, integer, integer, truth, integer], array(membership)),
  markAsUnread: call(109, [integer, integer]),
  setReadRanges: call(110, [integer, list(readRange)]),
  firstUnusedConference: call(114, [], integer),
  firstUnusedText: call(115, [], integer),
  findNextConference: call(116, [integer], integer),
  findPreviousConference: call(117, [integer], integer),
  localToGlobalReverse: call(121, [integer, integer, integer], textMapping),
};

/** A call as a line. */
export function lineOf(reference, { number, sent }, values) {
  const to = new Writer();
  integer.write(to, reference);
  integer.write(to, number);
  sent.forEach((shape, place) => shape.write(to, values[place]));
  return to.line();
}

/** What a line of a call has: its reference and the values that are sent. Only a check reads calls. */
export function callOf(line) {
  const from = new Reader(line);
  const [reference, number] = [from.integer(), from.integer()];
  const entry = Object.values(calls).find((each) => each.number === number);
  const values = entry.sent.map((shape) => shape.read(from));
  from.end();
  return { reference, call: entry, values };
}
