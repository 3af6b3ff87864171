#!/usr/bin/env node
// Tries the page's protocol and letters, contrib/web, without a browser: web_protocol.mjs
//
// Each good line of tests/good_lines is read as a call and spelled again; each reply and each message of
// tests/streams and tests/good_lines is read as a record and spelled again, and the bytes are the same. The
// answers of each stream are cut at each of their bytes, or at many where they are long, and byte by byte, and
// give the same lines. Lines that depart from what is wanted are refused. What letters.js makes of bytes and
// of what is typed is compared with worked rows.
//
// It prints a line for each departure, and a count. It ends with 1 where there is one, else with 0.

import { readFileSync, readdirSync } from "node:fs";
import { dirname, join } from "node:path";
import { fileURLToPath } from "node:url";

import { answerOf, messageLine, replyLine } from "../../contrib/web/protocol/answers.js";
import { fromLatin1, joined, latin1, same } from "../../contrib/web/protocol/bytes.js";
import { callOf, calls, lineOf } from "../../contrib/web/protocol/calls.js";
import { LONGEST_LINE, ProtocolError, Splitter } from "../../contrib/web/protocol/lines.js";
import { Omitted } from "../../contrib/web/protocol/shapes.js";
import * as letters from "../../contrib/web/letters.js";

if (process.argv.includes("--help")) {
  console.log(readFileSync(fileURLToPath(import.meta.url), "utf8").split("\n\nimport")[0].replace(/^.*\n/, ""));
  process.exit(0);
}

const ROOT = join(dirname(fileURLToPath(import.meta.url)), "..", "..");
const LONG = 1_000;
const CUTS_OF_LONG = 100;
const counts = new Map();
let faults = 0;

function wrong(what) {
  faults += 1;
  console.log(what);
}

const count = (kind) => counts.set(kind, (counts.get(kind) ?? 0) + 1);

/** Has two values be the same, letter by letter. */
function equal(kind, name, got, wanted) {
  count(kind);
  if (JSON.stringify(got) !== JSON.stringify(wanted)) {
    wrong(`${kind}: ${name} is ${JSON.stringify(got)?.slice(0, 200)}, not ${JSON.stringify(wanted).slice(0, 200)}`);
  }
}

/** The lines of a stream, cut before these places. */
function linesOf(stream, cuts) {
  const splitter = new Splitter();
  const lines = [];
  let begin = 0;
  for (const cut of [...cuts, stream.length]) {
    // A piece of its own memory, as each frame of a WebSocket is.
    lines.push(...splitter.push(stream.slice(begin, cut)));
    begin = cut;
  }
  return lines;
}

const shape = new Map(Object.values(calls).map(({ number, answer }) => [number, answer]));
const answered = new Set();

/** Reads each answer of a stream, spells it again, and compares. `sent` has the lines of the client. */
function tryAnswers(name, sent, lines) {
  const asked = new Map();
  for (const line of sent) {
    const words = /^\s*(\d+)\s+(\d+)/.exec(latin1(line));
    if (words) asked.set(Number(words[1]), [...(asked.get(Number(words[1])) ?? []), Number(words[2])]);
  }
  for (const line of lines) {
    const letters = latin1(line);
    if (letters === "LysKOM" || letters === "%%Protocol error.") continue;
    try {
      let number = 0;
      const answer = answerOf(line, (reference) => {
        number = asked.get(reference).shift();
        return shape.get(number);
      });
      if (answer.kind === "refusal") {
        asked.get(answer.reference)?.shift();
        count("refusals");
        continue;
      }
      const again = answer.kind === "reply"
        ? replyLine(answer.reference, shape.get(number), answer.value)
        : messageLine(answer.number, answer.value);
      count(answer.kind === "reply" ? "replies" : "messages");
      if (answer.kind === "reply") answered.add(number);
      if (!same(again.subarray(0, -1), line)) wrong(`${name}: ${letters.slice(0, 100)} is spelled ${latin1(again)}`);
    } catch (error) {
      wrong(`${name}: ${letters.slice(0, 100)}: ${error.message}`);
    }
  }
}

/** Cuts a stream in many ways, each of which gives the same lines. */
function tryCuts(name, stream) {
  const wanted = linesOf(stream, []).map(latin1);
  const tryAt = (cuts) => equal("cuts", `${name} at ${cuts.slice(0, 5)}`, linesOf(stream, cuts).map(latin1), wanted);
  const every = Array.from({ length: stream.length - 1 }, (_, place) => place + 1);
  if (stream.length <= LONG) {
    for (const place of every) tryAt([place]);
    tryAt(every);
  } else {
    const step = Math.floor(stream.length / CUTS_OF_LONG);
    for (let place = 1; place < stream.length; place += step) tryAt([place]);
    tryAt(every.filter((place) => place % 7 === 0));
  }
}

/** The lines of a client, whose greeting need not end with a line feed. */
function linesOfClient(stream) {
  const greeting = /^A\s*(\d+)H/.exec(latin1(stream.subarray(0, 40)));
  return greeting ? linesOf(stream.subarray(greeting[0].length + Number(greeting[1])), []) : [];
}

function tryStreams() {
  const folder = join(ROOT, "tests", "streams");
  for (const topic of readdirSync(folder, { withFileTypes: true }).filter((each) => each.isDirectory())) {
    for (const file of readdirSync(join(folder, topic.name)).filter((each) => each.endsWith(".in"))) {
      const name = `${topic.name}/${file.slice(0, -3)}`;
      const [sent, told] = [".in", ".out"].map((end) => new Uint8Array(readFileSync(join(folder, name + end))));
      try {
        tryAnswers(name, linesOfClient(sent), linesOf(told, []));
        tryCuts(name, told);
      } catch (error) {
        wrong(`${name}: ${error.message}`);
      }
      count("streams");
    }
  }
  const silent = [...shape.keys()].filter((number) => !answered.has(number));
  equal("calls", "those without a good reply in any stream", silent, []);
}

/** The bytes that a line of a file of good lines stands for. */
const plain = (text) => fromLatin1(text.replace(/\\(\\|x[0-9a-f]{2})/g,
  (_, what) => (what === "\\" ? "\\" : String.fromCharCode(parseInt(what.slice(1), 16)))));

function tryGoodLines() {
  const text = readFileSync(join(ROOT, "tests", "good_lines", "good.txt"), "latin1");
  const seen = new Set();
  for (const run of text.split("\n\n")) {
    const lines = run.split("\n");
    const sent = lines.filter((line) => line.startsWith("> ")).map((line) => plain(line.slice(2)));
    const told = lines.filter((line) => line.startsWith("< ")).map((line) => plain(line.slice(2)));
    if (sent.length === 0) continue;
    for (const line of sent) {
      count("good lines");
      try {
        const { reference, call, values } = callOf(line);
        const again = lineOf(reference, call, values);
        if (!same(again.subarray(0, -1), line)) wrong(`${latin1(line)} is spelled ${latin1(again)}`);
        seen.add(call.number);
      } catch (error) {
        wrong(`${latin1(line)}: ${error.message}`);
      }
    }
    tryAnswers(latin1(sent.at(-1)), sent, told);
  }
  equal("calls", "those without a good line", [...shape.keys()].filter((number) => !seen.has(number)), []);
  equal("calls", "how many", shape.size, 81);
}

/** Has something be refused as what departs from the protocol. */
function refuses(name, act) {
  count("departures");
  try {
    act();
    wrong(`${name} is taken`);
  } catch (error) {
    if (!(error instanceof ProtocolError)) wrong(`${name}: ${error}`);
  }
}

function tryDepartures() {
  const read = (line, number) => () => answerOf(fromLatin1(line), () => shape.get(number));
  refuses("an empty line", read("", 1));
  refuses("a word", read("hello", 1));
  refuses("a number too many", read("=1 2", 1));
  refuses("no number", read("=1", 56));
  refuses("a long number", read("=1 00000000001", 56));
  refuses("a great number", read("=1 4294967296", 56));
  refuses("a string past its line", read("=1 9Habc", 25));
  refuses("an array without its end", read("=1 1 { 5", 52));
  refuses("an array that is longer", read("=1 1 { 5 6 }", 52));
  refuses("an array that is shorter", read("=1 2 { 5 }", 52));
  refuses("a strange bit", read("=1 3Habc 00000002 0 0", 78));
  refuses("too few bits", read("=1 3Habc 0000 0 0", 78));
  refuses("a refusal without its status", read("%1 2", 1));
  refuses("a message that is none", read(":1 99 5", 1));
  refuses("a fault of the protocol", read("%%Protocol error.", 1));
  refuses("a long string", () => new Splitter().push(fromLatin1(`=1 ${LONGEST_LINE + 1}H`)));
  refuses("a long line", () => {
    const splitter = new Splitter();
    for (let size = 0; size <= LONGEST_LINE; size += 65_536) splitter.push(new Uint8Array(65_536).fill(32));
  });
  const many = answerOf(fromLatin1("=1 7 *"), () => shape.get(52)).value;
  equal("departures", "elements that were not asked for", [many instanceof Omitted, many.count], [true, 7]);
}

/** A long reply comes in many frames: each byte is taken once. */
function tryLong() {
  const body = new Uint8Array(1 << 20).fill(0x31);
  body.fill(10, 1000, 2000);
  const line = replyLine(7, shape.get(25), body);
  const lines = linesOf(joined([line, line]), Array.from({ length: 4000 }, (_, place) => (place + 1) * 500));
  equal("long replies", "two", lines.length, 2);
  const { value } = answerOf(lines[1], () => shape.get(25));
  equal("long replies", "the second", same(value, body), true);
}

function tryLetters() {
  const utf8 = (text) => new TextEncoder().encode(text);
  const item = (data, flags = "00000000") => [{ tag: 1, flags, data: fromLatin1(data) }];
  const row = (name, got, wanted) => equal("letters", name, got, wanted);
  const told = (bytes, aux = []) => letters.textOf(bytes, aux);
  row("Latin-1", told(fromLatin1("Grüße")), "Grüße");
  row("UTF-8 by its bytes", told(utf8("Grüße €")), "Grüße €");
  row("UTF-8 as told", told(utf8("å"), item("text/plain;charset=utf-8")), "å");
  row("as Emacs tells it", told(fromLatin1("Ã¥"), item("text/x-kom-basic;charset=iso-8859-1")), "Ã¥");
  row("with blanks and quotes", told(fromLatin1("Ã¥"), item('text/plain; charset = "ISO-8859-1"')), "Ã¥");
  row("in capitals", told(utf8("å"), item("Text/Plain; Charset=UTF-8")), "å");
  row("an item that is deleted", told(utf8("å"), item("text/plain;charset=iso-8859-1", "10000000")), "å");
  row("a charset that is unknown", told(utf8("å"), item("text/plain;charset=koi8-r")), "å");
  row("no charset", told(fromLatin1("å"), item("x-kom/text")), "å");
  row("wrong UTF-8 as told", told(fromLatin1("a\xffb"), item("text/plain;charset=utf-8")), "a\ufffdb");
  row("bytes from 128 to 159 are no letters of Windows", told(fromLatin1("\x80\x9b\xff")), "\x80\x9b\xff");
  row("a mark of byte order stays", told(utf8("\ufeffx")), "\ufeffx");
  const beginning = (bytes, length, aux = []) => letters.beginningOf(bytes.subarray(0, length), aux, bytes.length);
  row("a cut letter", [9, 10, 11].map((length) => beginning(utf8("Grüße € x"), length)), ["Grüße ", "Grüße ", "Grüße €"]);
  row("a cut letter as told", beginning(utf8("aü"), 2, item("t;charset=utf-8")), "a");
  row("a letter of four", [3, 4].map((length) => beginning(utf8("🐦.."), length)), ["", "🐦"]);
  row("Latin-1 that is whole", beginning(fromLatin1("blå"), 3), "blå");
  row("Latin-1 that is cut", beginning(fromLatin1("år på land"), 5), "år p");

  const shown = letters.shown;
  row("letters are shown", shown("Hej åäö 漢字 🐦 e\u0301 —"), "Hej åäö 漢字 🐦 e\u0301 —");
  row("C0, DEL and C1", shown("\x00\x07\x1b[31m\x7f\x80\x9b5m\r"), "???[31m???5m?");
  row("line feeds stay", shown("a\n\nb\n"), "a\n\nb\n");
  row("tabs", shown("\ta\tbc\t\n1234567\t8"), "        a       bc      \n1234567 8");
  row("directions", shown("\u061c\u200e\u200f\u202a\u202b\u202c\u202d\u202e\u2066\u2067\u2068\u2069"), "?".repeat(12));
  row("ends of lines", shown("a\u2028b\u2029c"), "a?b?c");
  row("private, missing, half", shown("\ue000\u0378\ud800\u{f0000}"), "????");
  row("joined signs", shown("👩\u200d💻"), "👩\u200d💻");
  row("a subject is one line", letters.shownInLine("a\nb\tc"), "a b     c");
  row("a name", letters.nameOf(fromLatin1("Ärla\x1b <b>")), "Ärla? <b>");
  row("a name is no UTF-8", letters.nameOf(utf8("é")), "Ã©");
  row("a message", letters.messageOf(utf8("fika klockan 3 €\x07")), "fika klockan 3 €?");

  const typed = (text) => {
    const { bytes, utf8: is } = letters.bytesOfText(text);
    return [latin1(bytes), is];
  };
  row("plain", typed("Hello\nall"), ["Hello\nall", false]);
  row("Latin-1 typed", typed("Grüße"), ["Gr\xfc\xdfe", false]);
  row("other letters", typed("€"), ["\xe2\x82\xac", true]);
  row("what would be read as UTF-8", typed("Ã¥"), ["\xc3\x83\xc2\xa5", true]);
  row("parts of letters", typed("u\u0308"), ["\xfc", false]);
  for (const text of ["Hello", "Grüße", "€ 漢", "Ã¥ Ã¤", "Â©", "a\n\tb"]) {
    const { bytes, utf8: is } = letters.bytesOfText(text);
    row(`${text} comes back`, letters.textOf(bytes, is ? item("text/plain;charset=utf-8") : []), text);
    row(`message ${text} comes back`, letters.messageOf(letters.bytesOfMessage(text)), letters.shown(text));
  }
  row("a name typed", latin1(letters.bytesOfName("Åke")), "Åke");
  let refusal = "";
  try {
    letters.bytesOfName("Bo €");
  } catch (error) {
    refusal = error instanceof letters.NotLatin1 ? error.message : String(error);
  }
  row("a name that does not fit", refusal, "The letter “€” cannot stand in a name or a password here.");
}

tryGoodLines();
tryStreams();
tryDepartures();
tryLong();
tryLetters();
const what = [...counts].map(([kind, number]) => `${number} ${kind}`).join(", ");
console.log(`${what}: ${faults === 0 ? "all as they should be" : `${faults} are not`}`);
process.exit(faults === 0 ? 0 : 1);
