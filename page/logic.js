"use strict";
// The course's page without its document: a run read from what `slips mail` tells, the places where the two slips do not match, and
// the message sequence chart. Plain functions on plain values; view.js puts what they give on the page, and the tests run them in node.
// The words are the papers': kiosk, keeper, ticket, line.

// Reading -------------------------------------------------------------------------------------------------------------------------

// A script's lines as bytes. Behind the last newline stands no line.
function linesOf(bytes) {
    const lines = [];
    let from = 0;
    for (let i = 0; i < bytes.length; i += 1) {
        if (bytes[i] === 10) {
            lines.push(bytes.slice(from, i));
            from = i + 1;
        }
    }
    if (from < bytes.length) lines.push(bytes.slice(from));
    return lines;
}

const LONGEST_SHOWN = 48;

// A line to be read: what is no printable ASCII is shown as \xNN, in a bad line each space is seen, and a long line is cut.
function shown(line, bad) {
    const one = (byte) => {
        if (bad && byte === 32) return "·";
        return byte >= 32 && byte < 127 ? String.fromCharCode(byte) : "\\x" + byte.toString(16).padStart(2, "0");
    };
    const text = Array.from(line.slice(0, LONGEST_SHOWN), one).join("");
    return line.length > LONGEST_SHOWN ? `${text}… (${line.length} bytes)` : text;
}

// The film's text is that of `slips mail` without the slips and messages that are as they were one event before; `gone` says that a
// message is no longer there.
const HEADER = /^gallery (\d+) (\d+) (\d+) (\d+)$/;
const REFUSED_SETTING = /^no (\d+)$/;
const ANSWER = /^(\d+) (?:ok (\d+) (\d+)|no (\d+))$/;
const END = /^end (\d+) (\d+) (\d+)$/;
const KEEPER = /^keeper (\d+) (?:(down|free)|owner (\d+),(\d+)(?: line((?: \d+,\d+)+))?)$/;
const KIOSK = /^kiosk (\d+) (?:(fallen)|(remainder|trying|holding) ticket (\d+) seen (\d+)(?: keepers((?: \d+)*))?)$/;
const MAIL = /^mail (\d+) ([A-Z]+) (kiosk|keeper) (\d+) (kiosk|keeper) (\d+) (?:ticket (\d+)|owner (\d+),(\d+)|(free)) (waiting|taken)$/;
const GONE = /^gone (\d+)$/;
const EVENT = /^(try|exit|fall|down|up|take|drop|miss|check) (\d+)$/;

const pairOf = (kiosk, ticket) => ({ kiosk: Number(kiosk), ticket: Number(ticket) });

function keeperOf(m) {
    const waiting = (m[5] || "").split(" ").filter(Boolean).map((pair) => pairOf(...pair.split(",")));
    return { number: Number(m[1]), up: m[2] !== "down", owner: m[3] ? pairOf(m[3], m[4]) : null, line: waiting };
}

function kioskOf(m) {
    if (m[2]) return { number: Number(m[1]), living: false, section: "fallen", ticket: null, seen: null, keepers: [] };
    const keepers = (m[6] || "").split(" ").filter(Boolean).map(Number);
    return { number: Number(m[1]), living: true, section: m[3], ticket: Number(m[4]), seen: Number(m[5]), keepers };
}

function messageOf(m, row) {
    const owner = m[8] ? pairOf(m[8], m[9]) : null;
    return {
        number: Number(m[1]),
        kind: m[2],
        from: { party: m[3], number: Number(m[4]) },
        to: { party: m[5], number: Number(m[6]) },
        ticket: m[7] ? Number(m[7]) : owner ? owner.ticket : 0,
        owner,
        sent: row,
        moves: [], // what became of it: { row, to: "taken" | "waiting" | "received" | "dropped" }
    };
}

const range = (from, to) => Array.from({ length: Math.max(0, to - from + 1) }, (_, i) => from + i);

// Before the first event: all keepers up and free, all kiosks living, in remainder, with ticket 0, and no ticket seen.
function startOf(setting, line) {
    return {
        row: 0,
        line,
        answer: "",
        ok: true,
        event: null,
        refusal: null,
        sent: 0,
        holders: 0,
        keepers: range(1, setting.n).map((number) => ({ number, up: true, owner: null, line: [] })),
        kiosks: range(1, setting.kiosks).map((number) => ({ number, living: true, section: "remainder", ticket: 0, seen: 0, keepers: [] })),
    };
}

// The step of an answer to a line, with the slips as they were; what is told behind it changes them.
function stepOf(m, bytes, before) {
    const ok = m[4] === undefined;
    const line = shown(bytes, Number(m[4]) === 16);
    const said = EVENT.exec(line);
    return {
        row: before.row + 1,
        line,
        answer: m[0],
        ok,
        event: ok && said ? { word: said[1], number: Number(said[2]) } : null,
        refusal: ok ? null : Number(m[4]),
        sent: ok ? Number(m[2]) : 0,
        holders: ok ? Number(m[3]) : before.holders,
        keepers: before.keepers.slice(),
        kiosks: before.kiosks.slice(),
    };
}

function tellMail(run, step, m) {
    const known = run.byNumber.get(Number(m[1]));
    if (!known) {
        const message = messageOf(m, step.row);
        run.byNumber.set(message.number, message);
        run.messages.push(message);
    } else if (standing(known, step.row) !== m[11]) {
        known.moves.push({ row: step.row, to: m[11] });
    }
}

function tellGone(run, step, m) {
    run.byNumber.get(Number(m[1])).moves.push({ row: step.row, to: step.event.word === "drop" ? "dropped" : "received" });
}

// What a line behind the first says of the run, by its form; `step` is the last one told.
const TELLING = [
    [ANSWER, (run, step, m, lines) => run.steps.push(stepOf(m, lines[step.row + 1], step))],
    [KEEPER, (run, step, m) => step.keepers.splice(m[1] - 1, 1, keeperOf(m))],
    [KIOSK, (run, step, m) => step.kiosks.splice(m[1] - 1, 1, kioskOf(m))],
    [MAIL, tellMail],
    [GONE, tellGone],
    [END, (run, step, m) => (run.end = { accepted: Number(m[1]), holders: Number(m[2]), down: Number(m[3]) })],
];

function tellLine(run, line, lines) {
    const told = TELLING.find(([form]) => form.test(line));
    if (!told || run.refused !== null) throw new Error(`this is no line of the slips: ${line}`);
    told[1](run, run.steps[run.steps.length - 1], told[0].exec(line), lines);
}

// A run from the film's text and the script's bytes. `steps[0]` is the start and `steps[i]` event line i; a refused first line leaves
// no steps. A text that is not of `slips mail` is an error.
function readRun(text, bytes) {
    const lines = linesOf(bytes);
    const [first, ...told] = text.split("\n").filter((line) => line !== "");
    const header = HEADER.exec(first);
    const refused = REFUSED_SETTING.exec(first);
    const line = shown(lines[0] || [], refused !== null && Number(refused[1]) === 16);
    const run = { setting: null, refused: null, first: line, steps: [], messages: [], byNumber: new Map(), end: null };
    if (header) {
        const [n, m, f, kiosks] = header.slice(1).map(Number);
        run.setting = { n, m, f, kiosks };
        run.steps.push(startOf(run.setting, run.first));
    } else if (refused) run.refused = Number(refused[1]);
    else throw new Error(`this is no first line of the slips: ${first}`);
    told.forEach((said) => tellLine(run, said, lines));
    if (header && !run.end) throw new Error("the slips have no end");
    return run;
}

// What a message is after event s: "waiting" or "taken" while it is there, "received" or "dropped" when it is gone, else null.
function standing(message, s) {
    if (s < message.sent) return null;
    let now = "waiting";
    for (const move of message.moves) if (move.row <= s) now = move.to;
    return now;
}

// The messages that are there after event s, waiting and taken.
function mailAt(run, s) {
    const there = (message) => ["waiting", "taken"].includes(standing(message, s));
    return run.messages.filter(there);
}

// The slips and the mail after event s as `slips mail` tells them: what was read, told again.
function tell(run, s) {
    const pair = (p) => `${p.kiosk},${p.ticket}`;
    const step = run.steps[s];
    const keeper = (k) => {
        const line = k.line.length ? " line " + k.line.map(pair).join(" ") : "";
        return `keeper ${k.number} ` + (!k.up ? "down" : k.owner ? `owner ${pair(k.owner)}${line}` : "free");
    };
    const kiosk = (k) => {
        const keepers = k.section === "remainder" ? "" : [" keepers", ...k.keepers].join(" ");
        return `kiosk ${k.number} ` + (k.living ? `${k.section} ticket ${k.ticket} seen ${k.seen}${keepers}` : "fallen");
    };
    const mail = (m) => {
        const says = m.kind !== "RESPONSE" ? `ticket ${m.ticket}` : m.owner ? `owner ${pair(m.owner)}` : "free";
        return `mail ${m.number} ${m.kind} ${m.from.party} ${m.from.number} ${m.to.party} ${m.to.number} ${says} ${standing(m, s)}`;
    };
    return [...step.keepers.map(keeper), ...step.kiosks.map(kiosk), ...mailAt(run, s).map(mail)];
}

// The party that an event is of: the one that it names, or the receiver of the message that it moves. None where it was refused.
function actor(run, s) {
    const event = run.steps[s].event;
    if (!event) return null;
    if (event.word === "take" || event.word === "drop") return run.byNumber.get(event.number).to;
    return { party: ["try", "exit", "fall"].includes(event.word) ? "kiosk" : "keeper", number: event.number };
}

// The two slips ------------------------------------------------------------------------------------------------------------------

// The last event up to s that is `word number` and was accepted; 0 where there is none.
function lastEvent(run, s, word, number) {
    for (let row = s; row > 0; row -= 1) {
        const event = run.steps[row].event;
        if (event && event.word === word && event.number === number) return row;
    }
    return 0;
}

// Where the two slips do not match after event s, each once, by kiosk and keeper: the kiosk counts the keeper with `counted` (its
// ticket, or null), the keeper's owner is the kiosk with `owned` (a ticket, or null), and the two differ.
function mismatches(run, s) {
    const found = [];
    const step = run.steps[s];
    for (const kiosk of step.kiosks) {
        for (const keeper of step.keepers) {
            const counted = kiosk.keepers.includes(keeper.number) ? kiosk.ticket : null;
            const owned = keeper.up && keeper.owner && keeper.owner.kiosk === kiosk.number ? keeper.owner.ticket : null;
            if (counted !== owned) {
                const reason = counted !== null ? forgotten(run, s, kiosk, keeper) : uncounted(run, s, kiosk, keeper);
                found.push({ kiosk: kiosk.number, keeper: keeper.number, counted, owned, says: disagreement(kiosk, keeper, counted), reason });
            }
        }
    }
    return found;
}

const pairText = (pair) => `kiosk ${pair.kiosk}, ticket ${pair.ticket}`;
const ownerText = (keeper) => (!keeper.up ? "is down" : keeper.owner ? `has owner ${pairText(keeper.owner)}` : "is free");

function disagreement(kiosk, keeper, counted) {
    if (counted !== null) return `Kiosk ${kiosk.number} counts keeper ${keeper.number}, but keeper ${keeper.number} ${ownerText(keeper)}.`;
    return `Keeper ${keeper.number} ${ownerText(keeper)}, but kiosk ${kiosk.number} does not count keeper ${keeper.number}.`;
}

// Why a keeper's slip no longer has what the kiosk counts: it lost it when it went down; or, since a restarted keeper can be told and
// can answer once more, the kiosk counts a second answer for a vote that it has yielded. `row` is the restart.
function forgotten(run, s, kiosk, keeper) {
    const has = (row) => {
        const { up, owner } = run.steps[row].keepers[keeper.number - 1];
        return up && owner !== null && owner.kiosk === kiosk.number && owner.ticket === kiosk.ticket;
    };
    let row = s; // the last event that took the vote away
    while (row > 0 && !has(row - 1)) row -= 1;
    const down = lastEvent(run, row, "down", keeper.number);
    if (row === 0 || down < lastEvent(run, s, "try", kiosk.number)) return unknown();
    const who = `Keeper ${keeper.number}`;
    if (down < row) {
        const message = run.steps[row].event.number;
        const text = `${who} restarted (event ${down}) and answered twice; ${named(run.byNumber.get(message))} gave the vote away (event ${row}).`;
        return { why: "answered twice", row: down, message, given: row, text };
    }
    const still = lastEvent(run, s, "down", keeper.number) === down && !keeper.up;
    if (still) return { why: "down", row, text: `${who} went down (event ${row}).` };
    return { why: "restarted", row, text: `${who} restarted (event ${row}) and forgot.` };
}

// Why a kiosk does not count a keeper whose owner it is: with the ticket that it has, or with one that it has left by an exit.
function uncounted(run, s, kiosk, keeper) {
    if (!kiosk.living) {
        const row = lastEvent(run, s, "fall", kiosk.number);
        return { why: "fallen", row, text: `Kiosk ${kiosk.number} has fallen (event ${row}).` };
    }
    const between = run.messages.filter((m) => m.sent <= s && isBetween(m, kiosk.number, keeper.number));
    if (kiosk.ticket === keeper.owner.ticket) {
        const about = between.filter((m) => concerns(m, keeper.owner));
        return onTheirWay(about, s, kiosk) || lost(about, s) || lateAnswer(about, s, kiosk) || unknown();
    }
    const about = between.filter((m) => leaves(m, keeper.owner));
    return onTheirWay(about, s, kiosk) || lateRequest(run, between, s, kiosk, keeper) || lost(about, s) || unknown();
}

const unknown = () => ({ why: "unknown", text: "The run up to here does not show why." });

function isBetween(message, kiosk, keeper) {
    const of = (party) => (message.from.party === party ? message.from.number : message.to.number);
    return of("kiosk") === kiosk && of("keeper") === keeper;
}

const isAnswerFor = (m, pair) => m.kind === "RESPONSE" && m.owner && m.owner.kiosk === pair.kiosk && m.owner.ticket === pair.ticket;

// The messages by which one of the two learns of the other: of a ticket that the kiosk still has, the answer and its yield; of one that
// it has left, the release and anything with a newer ticket.
const concerns = (m, pair) => isAnswerFor(m, pair) || (m.kind === "YIELD" && m.ticket === pair.ticket);
const leaves = (m, pair) =>
    m.to.party === "keeper" && (m.ticket > pair.ticket || (m.kind === "RELEASE" && m.ticket === pair.ticket));

const NAMES = { REQUEST: "request", YIELD: "yield", RELEASE: "release", INQUIRY: "inquiry", RESPONSE: "answer", CHECK: "check" };
const named = (m) => `${NAMES[m.kind]} ${m.number}`;
const capital = (text) => text[0].toUpperCase() + text.slice(1);

function onTheirWay(about, s, kiosk) {
    const waiting = about.filter((m) => standing(m, s) === "waiting");
    if (waiting.length === 0) return null;
    const are = waiting.length === 1 ? "is on its way" : "are on their way";
    const idle = kiosk.section === "holding" && waiting.every((m) => m.kind === "RESPONSE") ? `, but kiosk ${kiosk.number} holds already` : "";
    const text = `${capital(waiting.map(named).join(" and "))} ${are}${idle}.`;
    return { why: "on its way", messages: waiting.map((m) => m.number), text };
}

// What became of a message up to event s. That a taken one is dropped changes nothing between the two.
const fate = (m, s) => m.moves.filter((move) => move.row <= s && !(move.to === "dropped" && standing(m, move.row - 1) === "taken")).pop();

// The last of them to move was dropped on its way.
function lost(about, s) {
    const moved = about.map((m) => ({ m, move: fate(m, s) })).filter((x) => x.move);
    const last = moved.sort((a, b) => a.move.row - b.move.row).pop();
    if (!last || last.move.to !== "dropped") return null;
    return { why: "dropped", message: last.m.number, row: last.move.row, text: `${capital(named(last.m))} was dropped (event ${last.move.row}).` };
}

// The keeper took the request when the kiosk had left its ticket, for the first time or after a restart.
function lateRequest(run, between, s, kiosk, keeper) {
    const ticket = keeper.owner.ticket;
    const requests = between.filter((m) => m.kind === "REQUEST" && m.ticket === ticket);
    const takings = requests.flatMap((m) => m.moves.filter((move) => move.row <= s && move.to === "taken").map(({ row }) => ({ m, row })));
    const last = takings.sort((a, b) => a.row - b.row).pop();
    if (!last || run.steps[last.row].kiosks[kiosk.number - 1].ticket === ticket) return null;
    const { m, row } = last;
    const again = m.moves.filter((move) => move.row < row).pop();
    const text = again
        ? `Keeper ${keeper.number} restarted (event ${again.row}) and took request ${m.number} again (event ${row}).`
        : `Request ${m.number} came late (event ${row}): kiosk ${kiosk.number} had left ticket ${ticket}.`;
    return { why: again ? "told again" : "late", message: m.number, row, text };
}

// The answer came when the kiosk already held.
function lateAnswer(about, s, kiosk) {
    const received = (m) => m.moves.find((move) => move.row <= s && move.to === "received");
    const m = about.filter((x) => x.kind === "RESPONSE" && received(x)).pop();
    if (!m || kiosk.section !== "holding") return null;
    const row = received(m).row;
    return { why: "late", message: m.number, row, text: `Answer ${m.number} came (event ${row}) when kiosk ${kiosk.number} already held.` };
}

// The chart ----------------------------------------------------------------------------------------------------------------------

// What the messages did up to event s: "taken" by their receiver (by a keeper perhaps again, after a restart), "dropped" on their way,
// "discarded" (a taken one that was dropped), or "waiting" still, drawn down to the row below s. Each from the row that sent it.
function arrows(run, s) {
    const list = [];
    for (const message of run.messages) {
        if (message.sent > s) break;
        let now = "waiting";
        for (const move of message.moves) {
            if (move.row > s) break;
            if (move.to === "taken" || move.to === "received") list.push({ message, row: move.row, end: "taken" });
            if (move.to === "dropped") list.push({ message, row: move.row, end: now === "waiting" ? "dropped" : "discarded" });
            now = move.to;
        }
        if (now === "waiting") list.push({ message, row: s + 1, end: "waiting" });
    }
    return list;
}

// The stretches of rows 0 to s in which what `f` says of a step stays the same: { from, to, value }.
function stretches(run, s, f) {
    const list = [];
    for (let row = 0; row <= s; row += 1) {
        const value = f(run.steps[row]);
        const last = list[list.length - 1];
        if (last && last.value === value) last.to = row;
        else list.push({ from: row, to: row, value });
    }
    return list;
}

// Where things stand, in pixels: the first kiosk's line, row 0, a row's height, from party to party, from kiosks to keepers, and behind
// the last keeper. Left of the first kiosk there is room for the longest label; a chart by itself has the script's lines there too.
const SHEET = { left: 330, top: 84, row: 28, column: 96, gap: 40, right: 124 };
const ROOMY = { left: 92, top: 12, row: 28, column: 110, gap: 40, right: 92 };
const NARROWEST = 70;
const LETTER = 7.3;

const longer = (run) => Math.ceil(LETTER * Math.max(0, String(run.messages.length).length - 2));

const sheetFor = (run) => ({ ...SHEET, left: SHEET.left + 2 * longer(run), right: SHEET.right + longer(run) });

// On the page the columns take the room that there is.
function geometryFor(run, width) {
    const [left, right] = [ROOMY.left + longer(run), ROOMY.right + longer(run)];
    const gap = width < 480 ? 12 : width < 640 ? 24 : ROOMY.gap;
    const fitting = Math.floor((width - left - right - gap) / (run.setting.kiosks + run.setting.n - 1));
    return { ...ROOMY, left, right, gap, column: Math.max(NARROWEST, Math.min(ROOMY.column, fitting)) };
}

const LABELS = 6; // of waiting messages, below each receiver
const WHOLE_LABELS = 84; // in narrower columns these have their number alone

const yOf = (g, row) => g.top + g.row * row;

function xOf(run, g, party) {
    const at = party.party === "kiosk" ? party.number - 1 : run.setting.kiosks + party.number - 1;
    return g.left + g.column * at + (party.party === "keeper" ? g.gap : 0);
}

const partiesOf = (run) => [
    ...range(1, run.setting.kiosks).map((number) => ({ party: "kiosk", number })),
    ...range(1, run.setting.n).map((number) => ({ party: "keeper", number })),
];

const widthOf = (run, g) => xOf(run, g, { party: "keeper", number: run.setting.n }) + g.right;

function heightOf(run, s, g) {
    const stacked = new Map();
    for (const a of arrows(run, s)) {
        const to = `${a.message.to.party} ${a.message.to.number}`;
        if (a.end === "waiting") stacked.set(to, (stacked.get(to) || 0) + 1);
    }
    return yOf(g, s + 1) + 14 * Math.min(Math.max(0, ...stacked.values()), LABELS + 1) + 20;
}

const escapeText = (text) => text.replace(/[&<>"']/g, (c) => `&#${c.charCodeAt(0)};`);
const lineSvg = (kind, x1, y1, x2, y2) => `<line class="${kind}" x1="${x1}" y1="${y1}" x2="${x2}" y2="${y2}"/>`;
const boxSvg = (kind, x, y, w, h) => `<rect class="${kind}" x="${x}" y="${y}" width="${w}" height="${h}"/>`;
const textSvg = (kind, x, y, text) => `<text class="${kind}" x="${x}" y="${y}">${escapeText(text)}</text>`;
const dotSvg = (x, y) => `<circle class="dot" cx="${x}" cy="${y}" r="4"/>`;
const crossSvg = (x, y) => `<path class="cross" d="M${x - 5} ${y - 5}l10 10m0 -10l-10 10"/>`;

// The chart after event s as shapes, in the order in which they are painted: { top, bottom, svg }, where svg() is the shape's text. So
// of a long run only what is seen is made.
function shapes(run, s, g) {
    const list = [];
    const add = (top, bottom, svg) => list.push({ top: Math.min(top, bottom), bottom: Math.max(top, bottom), svg });
    const y = (row) => yOf(g, row);
    addBackground(run, s, g, y, add);
    for (const party of partiesOf(run)) addParty(run, s, xOf(run, g, party), y, party, add);
    const moved = arrows(run, s);
    for (const a of moved) addArrow(run, g, y, a, add);
    for (const a of moved) addLabel(run, g, y, a, add); // over the lines
    addWaitingLabels(run, s, g, y, add);
    for (let row = 1; row <= s; row += 1) addMark(run, g, y, run.steps[row], add);
    return list;
}

// Refused rows, and a band where two or more hold at once.
function addBackground(run, s, g, y, add) {
    const width = widthOf(run, g);
    for (const step of run.steps.slice(1, s + 1)) {
        if (!step.ok) add(y(step.row) - 9, y(step.row) + 9, () => boxSvg("refused", 0, y(step.row) - 9, width, 18));
    }
    for (const band of stretches(run, s, (step) => step.holders)) {
        if (band.value < 2) continue;
        const top = y(band.from);
        add(top, y(band.to + 1), () => boxSvg("band", 0, top, width, y(band.to + 1) - top));
        add(top, top + 20, () => textSvg("two early", g.left - 12, top + 18, `${band.value} at once`));
    }
}

// A party's line, pale where a kiosk has fallen and dashed where a keeper is down, and a bar where a kiosk holds.
function addParty(run, s, x, y, party, add) {
    const i = party.number - 1;
    const kiosk = party.party === "kiosk";
    const state = (step) => (kiosk ? (step.kiosks[i].living ? "life" : "fallen") : step.keepers[i].up ? "life" : "down");
    for (const part of stretches(run, s, state)) add(y(part.from), y(part.to + 1), () => lineSvg(part.value, x, y(part.from), x, y(part.to + 1)));
    if (!kiosk) return;
    for (const part of stretches(run, s, (step) => step.kiosks[i].section === "holding")) {
        if (part.value) add(y(part.from), y(part.to + 1), () => boxSvg("holds", x - 5, y(part.from), 10, y(part.to + 1) - y(part.from)));
    }
}

const label = (m) => `${m.number} ${m.kind}`;

const halfway = (run, g, m) => (xOf(run, g, m.from) + xOf(run, g, m.to)) / 2;

function addArrow(run, g, y, a, add) {
    const [from, to] = [xOf(run, g, a.message.from), xOf(run, g, a.message.to)];
    const [top, bottom] = [y(a.message.sent), y(a.row)];
    const half = halfway(run, g, a.message);
    if (a.end === "dropped") add(top, bottom + 5, () => lineSvg("dropped", from, top, half, bottom) + crossSvg(half, bottom));
    else if (a.end === "discarded") add(bottom - 5, bottom + 5, () => crossSvg(to, bottom));
    else add(top, bottom, () => lineSvg(a.end, from, top, to, bottom));
}

// Beside the arrow's end, behind the receiver's line. One that still waits has its label below.
function addLabel(run, g, y, a, add) {
    if (a.end === "waiting") return;
    const [from, to, at] = [xOf(run, g, a.message.from), xOf(run, g, a.message.to), y(a.row)];
    const put = (kind, x, text) => add(at - 8, at + 8, () => textSvg(`label ${kind}`, x, at + 4, text));
    if (a.end === "dropped") put("late lost", halfway(run, g, a.message) + 9, `${label(a.message)} dropped`);
    else if (a.end === "discarded") put("late lost", to + 9, `${label(a.message)} dropped`);
    else if (to > from) put("late", to + 9, label(a.message));
    else put("early", to - 9, label(a.message));
}

// Below the last row, under each receiver: what still waits for it.
function addWaitingLabels(run, s, g, y, add) {
    for (const party of partiesOf(run)) {
        const here = (m) => m.to.party === party.party && m.to.number === party.number && standing(m, s) === "waiting";
        const text = (m) => (g.column < WHOLE_LABELS ? String(m.number) : label(m));
        const labels = run.messages.filter((m) => m.sent <= s && here(m)).map(text);
        const more = labels.length > LABELS + 1 ? [`+ ${labels.length - LABELS}`] : [];
        labels.slice(0, more.length ? LABELS : LABELS + 1).concat(more).forEach((text, i) => {
            const at = y(s + 1) + 14 * (i + 1);
            add(at - 10, at + 4, () => textSvg("label below", xOf(run, g, party), at, text));
        });
    }
}

// What a party does by itself: a dot on its line, and the word where no arrow leaves.
function addMark(run, g, y, step, add) {
    if (!step.event || step.event.word === "take" || step.event.word === "drop") return;
    const party = actor(run, step.row);
    const x = xOf(run, g, party);
    const at = y(step.row);
    const word = party.party === "kiosk" ? textSvg("did early", x - 9, at + 4, step.event.word) : textSvg("did late", x + 9, at + 4, step.event.word);
    add(at - 8, at + 8, () => dotSvg(x, at) + word);
}

function headsSvg(run, g, at) {
    const one = (party) => textSvg("party", xOf(run, g, party), at, `${party.party} ${party.number}`);
    return partiesOf(run).map(one).join("");
}

// Colours are the page's where it gives them, so that they follow its light and dark; a chart by itself is light.
const CHART_STYLE = `
.chart text{font:12px ui-monospace,Menlo,Consolas,monospace;fill:var(--ink,#1d2430)}
.chart .party{font-weight:bold;text-anchor:middle}
.chart .life{stroke:var(--soft,#66707f);stroke-width:1.5}
.chart .fallen{stroke:var(--pale,#d5dae1);stroke-width:1.5}
.chart .down{stroke:var(--bad,#b3261e);stroke-width:2;stroke-dasharray:5 4}
.chart .holds{fill:var(--good,#1f8a52)}
.chart .band{fill:var(--badwash,#fbdcda)}
.chart .refused{fill:var(--wash,#f3f4f6)}
.chart .two,.chart .no{fill:var(--bad,#b3261e);font-weight:bold}
.chart .dot{fill:var(--ink,#1d2430)}
.chart .taken{stroke:var(--blue,#1c4f9c);stroke-width:1.4;marker-end:url(#head)}
.chart .head{fill:var(--blue,#1c4f9c)}
.chart .dropped{stroke:var(--bad,#b3261e);stroke-width:1.4;stroke-dasharray:6 4}
.chart .cross{stroke:var(--bad,#b3261e);stroke-width:2;fill:none}
.chart .waiting{stroke:var(--soft,#66707f);stroke-dasharray:1 4;stroke-linecap:round;stroke-width:1.6}
.chart .label{fill:var(--blue,#1c4f9c)}
.chart .lost{fill:var(--bad,#b3261e)}
.chart .below{font-size:11px;text-anchor:middle;fill:var(--soft,#66707f)}
.chart .label,.chart .did,.chart .two{paint-order:stroke;stroke:var(--paper,#fff);stroke-width:3px}
.chart .early{text-anchor:end}
.chart .paper{fill:var(--paper,#fff)}
`;
const MARKER = '<marker id="head" viewBox="0 0 10 10" refX="10" refY="5" markerWidth="8" markerHeight="8" orient="auto"><path class="head" d="M0 1L10 5L0 9z"/></marker>';

const settingText = ({ n, m, f, kiosks }) => {
    const some = (count, one) => `${count} ${one}${count === 1 ? "" : "s"}`;
    return `${some(n, "keeper")}, threshold ${m}, ${f === 1 ? "1 loss" : `${f} losses`}, ${some(kiosks, "kiosk")}`;
};

const cut = (text, most) => (text.length > most ? text.slice(0, most - 1) + "…" : text);

// The whole chart up to event s as an SVG file of its own, with the script's lines and their answers.
function svgOf(run, s) {
    const g = sheetFor(run);
    const [width, height] = [widthOf(run, g), heightOf(run, s, g)];
    const row = (step) => {
        const at = yOf(g, step.row) + 4;
        return textSvg("event", 16, at, cut(step.line, 18)) + textSvg(step.ok ? "ok" : "no", 156, at, step.answer);
    };
    const style = CHART_STYLE.replace(/var\(--\w+,(#\w+)\)/g, "$1");
    return [
        `<svg xmlns="http://www.w3.org/2000/svg" class="chart" width="${width}" height="${height}" viewBox="0 0 ${width} ${height}" role="img">`,
        `<title>${escapeText(settingText(run.setting))}: ${s} events</title>`,
        `<style>${style}</style>`,
        `<defs>${MARKER}</defs>`,
        boxSvg("paper", 0, 0, width, height),
        textSvg("set", 16, 28, settingText(run.setting)),
        headsSvg(run, g, 60),
        ...shapes(run, s, g).map((shape) => shape.svg()),
        ...run.steps.slice(1, s + 1).map(row),
        "</svg>",
        "",
    ].join("\n");
}

// Words --------------------------------------------------------------------------------------------------------------------------

const REFUSALS = {
    7: "a number is out of range",
    10: "the kiosk is in the wrong section for this",
    11: "no two tickets are left, for a try and its exit, above the kiosk's last and all that it has seen",
    15: "the keeper has no owner",
    16: "this is no line of a script",
    17: "there is no such kiosk, keeper or waiting message",
    18: "that party is down or has fallen (or is up already)",
    19: "no place or number is left for what would be sent",
    20: "the owner still lives",
};

// What a step's answer means, in words.
function answerText(step) {
    if (step.row === 0) return "The start: nothing has happened.";
    if (!step.ok) return `Refused, ${step.refusal}: ${REFUSALS[step.refusal]}. Nothing changes.`;
    const sent = step.sent === 0 ? "nothing is sent" : step.sent === 1 ? "1 message is sent" : `${step.sent} messages are sent`;
    return `Accepted: ${sent}.`;
}

// A kiosk's ticket, and the largest that it has seen, as its slip shows them.
const ticketTexts = (kiosk) => (kiosk.living ? [String(kiosk.ticket), `seen ${kiosk.seen}`] : ["", ""]);

const holdingAt = (step) => step.kiosks.filter((kiosk) => kiosk.section === "holding").map((kiosk) => kiosk.number);

function holdersText(step) {
    const who = holdingAt(step);
    return `Holders: ${step.holders}` + (who.length ? ` (${who.length === 1 ? "kiosk" : "kiosks"} ${who.join(", ")})` : "");
}

const endText = ({ accepted, holders, down }) =>
    `${accepted} event${accepted === 1 ? "" : "s"} accepted; at most ${holders} holder${holders === 1 ? "" : "s"} at once; ` +
    `at most ${down} keeper${down === 1 ? "" : "s"} down within one epoch.`;

// A message on its way, or taken, in a line.
function mailText(m) {
    const says = m.kind !== "RESPONSE" ? `ticket ${m.ticket}` : m.owner ? `owner ${pairText(m.owner)}` : "no owner";
    return `${m.from.party} ${m.from.number} to ${m.to.party} ${m.to.number}, ${says}`;
}

if (typeof module !== "undefined") {
    module.exports = { ticketTexts, linesOf, readRun, tell, mismatches, arrows, svgOf, xOf, sheetFor, partiesOf };
}
