"use strict";
const $ = (id) => document.getElementById(id);
const KINDS = ["claim", "capture", "answer"];
const CAPTURES = /^[^.].*\.(pcap|cap)[0-9]*$/;
let worker = null, judged = [], chosen = {};

// ---- elements, with texts alone

function element(name, ...children) {
  const [tag, ...classes] = name.split("."), made = document.createElement(tag);
  made.className = classes.join(" ");
  made.append(...children.filter((child) => child !== ""));
  return made;
}

// A stranger's name, with what turns or hides its letters as numbers.
function nameOf(file) {
  const path = file.path || file.webkitRelativePath || file.name;
  return path.replace(/[\p{C}\p{Zl}\p{Zp}]/gu, (c) => `\\u{${c.codePointAt(0).toString(16)}}`);
}

const warn = (text) => Object.assign($("warning"), {textContent: text, hidden: !text});

// ---- files

// A dropped file is shown where it might have been chosen.
function choose(kind, file, isDropped) {
  if (isDropped) {
    const list = new DataTransfer();
    list.items.add(file);
    $(kind).files = list.files;
  }
  chosen[kind] = file;
  $(`${kind}-says`).textContent = file ? nameOf(file) : "";
  $("results").replaceChildren();
  $("status").textContent = "";
}

async function kindOf(file) {
  const head = new Uint8Array(await file.slice(0, 24).arrayBuffer());
  const magic = Array.from(head.slice(0, 4), (byte) => byte.toString(16).padStart(2, "0")).join("");
  if (["d4c3b2a1", "a1b2c3d4", "4d3cb2a1", "a1b23c4d", "0a0d0d0a"].includes(magic)) return "capture";
  const text = new TextDecoder().decode(await file.slice(0, 65536).arrayBuffer());
  if (/^(conflict|nothing fits|no evidence|open) ?/.test(text) || /"(pieces|error|cases)"/.test(text)) return "answer";
  return /"client"/.test(text) ? "claim" : "";
}

// What a folder of the dossier asks: of each claim in it the answer beside it.
function questionsOf(files) {
  const folders = new Map(), questions = [];
  for (const file of files) {
    const path = nameOf(file), at = path.lastIndexOf("/") + 1, folder = path.slice(0, at);
    folders.set(folder, (folders.get(folder) || new Map()).set(path.slice(at), file));
  }
  const captureIn = (folder) => {
    const inside = folders.get(folder) || new Map(), names = [...inside.keys()].filter((name) => CAPTURES.test(name));
    return inside.get(names.length === 1 ? names[0] : "joined.pcap");
  };
  for (const [folder, inside] of [...folders].sort(([one], [two]) => (one < two ? -1 : 1))) {
    const [claim, zero, certificate, refutation, report] = ["claim.json", "bound-0.claim.json", "certificate.json",
      "refutation.json", "report.txt"].map((name) => inside.get(name));
    const capture = captureIn(folder) || captureIn(folder.replace(/[^/]*\/$/, ""));
    const answer = certificate || refutation || report;
    if (!claim || !capture || !answer) continue;
    questions.push({claim, capture, answer});
    if (certificate && refutation && zero) questions.push({claim: zero, capture, answer: refutation, isZero: true});
  }
  return questions;
}

async function take(files) {
  warn("");
  const questions = questionsOf(files);
  if (questions.length) return void judgeAll(questions);
  const found = {};
  for (const file of files.slice(0, 50)) {
    const kind = await kindOf(file);
    if (kind && (!found[kind] || file.name === `${kind}.json`)) found[kind] = file;
  }
  for (const [kind, file] of Object.entries(found)) choose(kind, file, true);
  if (!Object.keys(found).length) warn("In what was dropped is no claim, no capture and no answer that this page knows.");
  else if (KINDS.every((kind) => chosen[kind])) judgeAll([{...chosen}]);
  else warn(`Still missing: ${KINDS.filter((kind) => !chosen[kind]).join(", ")}.`);
}

// What stands in a folder that was dropped. From a disk Chromium opens it by its handle alone, and Firefox has none.
async function* inside(folder) {
  if (folder.values) return yield* folder.values();
  for (const reader = folder.createReader(); ;) {
    const some = await new Promise((given, failed) => reader.readEntries(given, failed));
    if (!some.length) return;
    yield* some;
  }
}

async function filesBelow(folder, path) {
  const found = [];
  for await (const one of inside(folder)) {
    if (one.isDirectory || one.kind === "directory") found.push(...await filesBelow(one, `${path}${one.name}/`));
    else found.push(named(await (one.getFile?.() || new Promise((given, failed) => one.file(given, failed))), path));
  }
  return found;
}

const named = (file, path) => Object.defineProperty(file, "path", {value: path + file.name});

// What is dropped has to be asked for at once, and is waited for later.
function filesOf(item) {
  const entry = item.webkitGetAsEntry(), file = item.getAsFile();
  if (!entry || entry.isFile) return [file];
  const handle = item.getAsFileSystemHandle?.();
  return handle ? handle.then((opened) => filesBelow(opened, `${entry.name}/`)) : filesBelow(entry, `${entry.name}/`);
}

// ---- the worker

function started() {
  const url = URL.createObjectURL(new Blob([$("worker").textContent], {type: "text/javascript"}));
  const made = new Worker(url);
  URL.revokeObjectURL(url);
  return made;
}

function ask(question) {
  return new Promise((given) => {
    worker.onmessage = ({data}) => {
      if (data.line !== undefined) given(data);
      else {
        $("progress").value = data.part;
        $("doing").textContent = data.doing;
      }
    };
    worker.onerror = (event) => given({status: 2, line: `page ${event.message || "out of memory"}`, sums: []});
    worker.postMessage(KINDS.map((kind) => question[kind]));
  });
}

function running(is) {
  $("running").hidden = $("stop").hidden = !is;
  $("judge").disabled = is;
}

async function judgeAll(questions) {
  stop();
  const own = worker = started();
  running(true);
  judged = [];
  $("results").replaceChildren();
  for (const [number, question] of questions.entries()) {
    $("progress").value = 0;
    $("status").textContent = questions.length > 1 ? `Judging ${number + 1} of ${questions.length}` : "Judging";
    const said = await ask(question);
    if (own !== worker) return;
    judged.push({...said, isZero: question.isZero, files: KINDS.map((kind) => question[kind])});
    $("results").append(shown(judged[number], number, questions.length));
  }
  stop();
  const right = judged.filter(({status, line}) => status < 2 && !/^(verdict no|refuted no|not right)/.test(line)).length;
  $("status").textContent = judged.length > 1 ? `${right} of ${judged.length} answers are right` : "Judged";
  $("compare").hidden = false;
  compare();
  $("results").querySelector("h2").focus();
}

function stop(status = "") {
  worker?.terminate();
  worker = null;
  running(false);
  $("status").textContent = status;
}

// ---- numbers for people

const TICKS = 2 ** 32;
const decimals = (number, most) => String(Number(number.toFixed(most)));
const inMs = (ns) => `${decimals(ns / 1e6, 6)} ms`;
const inPpm = (ppb) => `${decimals(ppb / 1000, 3)} ppm`;
const plural = (count, one, more) => `${count} ${count === 1 ? one : more}`;
function timeOf(ticks) {
  const second = Math.floor(ticks / TICKS), part = Math.floor((ticks / TICKS - second) * 1e3);
  const text = new Date(second * 1000).toISOString().slice(0, 19).replace("T", " ");
  return `${text}${part ? `.${String(part).padStart(3, "0")}` : ""} UTC`;
}
const parsed = (text) => { try { return JSON.parse(text); } catch { return null; } };
const spelled = (time) => time.replace("T", " ").replace("Z", " UTC");

// ---- the verdict in words

const WHY = {
  cut: "it ends before it begins, or after the span does",
  "bad-sample": "it names a sample that the capture doesn't have",
  "mixed-servers": "the two samples of an entry are of different servers",
  "repeated-server": "a server has two entries in it",
  unbounded: "no more groups of servers have an entry in it than may be wrong",
  contradiction: "whichever groups are taken for wrong, the others contradict each other",
  exceeds: "its samples leave room for an error beyond the bound",
  uncovered: "the pieces end before the span does",
  "left-out": "an entry is of a server that its case takes for wrong",
  "no-conflict": "its two exchanges agree, or the capture doesn't have them", "no-case": "it has no case",
  "too-many-groups": "more groups are wrong in it than may be", "no-group": "it names a group that there isn't",
  "repeated-group": "it names a group twice", "repeated-case": "a case before it names the same groups",
  unanswered: "there is a choice of wrong groups that it has no case for",
};
const FAULTS = {
  json: "it is no JSON text in UTF-8", address: "an address isn't written as four numbers with dots",
  time: "a time isn't of the form 2026-11-22T06:46:09Z, or doesn't exist", range: "a number is out of its limits",
  "repeated-server": "a server stands there twice, or is the client", groups: "the groups don't hold each server once",
  top: "it isn't a list of \"pieces\" alone, or of \"cases\" and one of \"conflicts\"", shape: "it isn't of the form",
  field: "a name is missing, strange, or of another kind",
  "torn-header": "it ends within its header", "torn-record": "it ends within a record",
  magic: "it is no classic pcap file (editcap -F pcap converts pcapng)", version: "its version isn't 2.4",
  link: "its packets aren't Ethernet frames", "too-long": "a record is longer than 262,144 bytes",
  "bad-fraction": "a record's time has a fraction of a second or more", "too-many": "it has more than 4,000,000 records",
  "too-many-conflicts": "it has more than 528 conflicts", conflicts: "a conflict isn't two numbers",
  "too-many-cases": "it has more than 64 cases", case: "a case isn't of the form",
  "too-many-pieces": "it has more than 100,000 pieces", "too-many-entries": "a piece has more than 32 entries",
};

function premises({claim}) {
  const groups = (claim.groups || claim.servers).length;
  return element("section",
    element("h3", "What a yes presumes"),
    element("p.soft", "No program can see whether these are true. Ask for the evidence for each."),
    element("ol",
      element("li", `The capture was recorded on ${claim.client}, and nobody changed it. By that machine's own clock, no
        request left more than ${inMs(claim.reading_ns)} before its record's time, and no reply arrived more than that
        after its own. A reply that carries a request's timestamp answers that request.`),
      element("li", `Over these exchanges and the span, the clock gained or lost at most ${inPpm(claim.drift_ppb)},
        corrections by its client included. It wasn't stepped, and the machine wasn't suspended.`),
      element("li", `At most ${claim.false_max} of ${plural(groups, "group", "groups")} of servers
        ${claim.false_max === 1 ? "was" : "were"} wrong in these exchanges. Every other server was within the root
        distance that its packet announces.`),
      element("li", `There was no leap second, and clock and servers were within 68 years of each other.`)),
    element("p.soft", `A yes is about the exchanges that the certificate names. Where no course of events fits these, or
      the whole capture, it says nothing; the program's check --human says whether one does. You trust Coq and its
      extraction, js_of_ocaml, and this browser.`));
}

const within = (claim) => `within ${inMs(claim.bound_ns)} of UTC from ${spelled(claim.from)} to ${spelled(claim.to)}`;

// A heading, a sentence, and what else is told.
function wordsOf(result) {
  const {status, line, claim, answer} = result, words = line.split(" ");
  if (status === 2) return ["other", "Not judged", refusal(words), ""];
  if (result.isEmpty)
    return ["other", "An empty yes", `The certificate is right, and says nothing of the clock of ${claim.client}: no course
      of events fits the exchanges that its conflicts name. So one of the claim's premises is false.`, ""];
  if (line === "verdict yes")
    return ["yes", "Yes", `The clock of ${claim.client} was ${within(claim)}, by its own time: in every course of events
      that fits the exchanges which the certificate names, whatever the delays, if the premises below are true.`,
    premises(result)];
  if (words[0] === "verdict")
    return ["no", "No", `This certificate doesn't show that the clock of ${claim.client} was ${within(claim)}.
      ${failed(words.slice(2), parsed(answer), claim)}.`, element("p.soft", "That the clock was off, it doesn't say.")];
  if (words[0] === "refuted") return [status ? "no" : "yes", status ? "It doesn't stand" : "It stands", refuted(result), ""];
  if (words[0] === "not") return ["no", "Not right", `The capture doesn't bear out “${line.slice(11)}”.`, ""];
  if (words[0] === "nothing")
    return ["other", "Nothing fits", `That is right: with at most ${plural(claim.false_max, "group", "groups")} of servers
      wrong, no course of events fits this capture. So one of the claim's premises is false.`, ""];
  return ["other", "No evidence", `That is right: no more groups of servers answered (${words[3]} of ${words[5]}) than may be
    wrong (${words[7]}), so the capture says nothing of this clock.`, ""];
}

function refuted({status, claim, answer, isZero}) {
  const {error, reading, "false": named} = parsed(answer);
  const off = `off by ${inMs(error / TICKS * 1e9)} at ${timeOf(reading)}`;
  const wrong = named.length ? ` The servers taken for wrong are ${named.map((k) => claim.servers[k]).join(", ")}.` : "";
  if (status) return `This capture doesn't show that the clock of ${claim.client} may have been ${off}.`;
  if (isZero) return `Some course of events fits the whole capture (one in which the clock was ${off}). So a yes about it isn't empty.`;
  return `In some course of events that fits the whole capture, the clock of ${claim.client} was ${off}, more than
    ${inMs(claim.bound_ns)}. So nothing in this capture can show the claim. The clock needn't have been off by so much.${wrong}`;
}

// The test that fails: of a certificate, or of one of its cases.
function failed([what, number, ...rest], answer, claim) {
  if (what === "case" && rest.length > 1)
    return `In case ${number}: ${failed(rest, answer?.cases?.[number], claim)}`;
  const text = WHY[rest[0] || what];
  if (rest[0] === "uncovered") return `It has ${plural(Number(number), "piece", "pieces")}, and ${text}`;
  if (!rest.length) return `It fails: ${text}`;
  const piece = what === "piece" ? pieceOf(answer, Number(number), claim) : "";
  return `${what[0].toUpperCase()}${what.slice(1)} ${number}${piece} fails: ${text}`;
}

function pieceOf(answer, number, claim) {
  const pieces = answer?.pieces;
  if (!pieces?.[number]) return "";
  const begin = number ? pieces[number - 1].upto : Date.parse(claim.from) / 1000 * TICKS;
  return ` (${timeOf(begin)} to ${timeOf(pieces[number].upto)})`;
}

function refusal(words) {
  const [input, number, word, ...rest] = words;
  const known = {claim: "claim", capture: "capture", certificate: "certificate", refutation: "answer"}[input];
  if (known && FAULTS[word])
    return `The ${known} is refused: ${FAULTS[word]} (fault ${words.slice(1).join(" ")}).`;
  if (input === "too-big") return `The ${number} has too many bytes.`;
  if (input === "exchanges") return "The capture has more than 1,000,000 exchanges of this client.";
  if (input === "answer") return `What settle printed can't be judged: ${words.slice(1).join(" ")}.`;
  return `This page couldn't do it: ${words.slice(1).join(" ")}.`;
}

function shown(result, number, count) {
  result.claim = parsed(result.claim);
  const [kind, verdict, sentence, more] = wordsOf(result);
  const heading = element("h2", element("span.verdict", verdict),
    count > 1 ? element("bdi", nameOf(result.files[2])) : "");
  heading.tabIndex = -1;
  const sums = KINDS.flatMap((name, k) => !result.sums[k] ? [] : [
    element("dt", `${name[0].toUpperCase()}${name.slice(1)}: `, element("bdi", nameOf(result.files[k]))),
    element("dd.sum", element("span", result.sums[k]), " ")]);
  const made = element(`article.${kind}`, heading, element("p.lead", sentence), more || "",
    element("p.soft", "In ntpaudit's words: ", element("code", result.line)), element("h3", "SHA-256"), element("dl", ...sums));
  made.setAttribute("aria-label", `answer ${number + 1}`);
  return made;
}

// Which of the sums stand in what was pasted.
function compare() {
  const given = $("sums").value.toLowerCase();
  for (const row of document.querySelectorAll(".sum")) {
    row.querySelector("b")?.remove();
    if (!given.trim()) continue;
    const same = given.includes(row.firstChild.textContent);
    row.append(element(same ? "b.same" : "b.differs", same ? "✓ in your list" : "✗ not in your list"));
  }
}

// ---- what happens

for (const kind of KINDS) $(kind).onchange = () => choose(kind, $(kind).files[0]);
$("choose").onclick = () => $("folder").click();
$("folder").onchange = () => take([...$("folder").files]);
$("stop").onclick = () => stop("Stopped");
$("sums").oninput = compare;
$("form").onsubmit = (event) => {
  event.preventDefault();
  const missing = KINDS.filter((kind) => !chosen[kind]);
  warn(missing.length ? `Still missing: ${missing.join(", ")}.` : "");
  if (!missing.length) judgeAll([{...chosen}]);
};
document.ondragover = (event) => {
  event.preventDefault();
  document.body.classList.add("over");
};
document.ondragleave = () => document.body.classList.remove("over");
document.ondrop = async (event) => {
  event.preventDefault();
  document.ondragleave();
  const items = [...event.dataTransfer.items].filter(({kind}) => kind === "file");
  try {
    take((await Promise.all(items.map(filesOf))).flat());
  } catch (error) {
    warn(`It can't be read here (${error.message}). Choose the folder by its button.`);
  }
};
