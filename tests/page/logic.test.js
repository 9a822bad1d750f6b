"use strict";
// The page's logic, on the film of every script of tests/scripts and of scripts that grow: what the page shows is what the proved text
// says, each place where the slips do not match is named once and with its reason, and each arrow has both ends. What is expected is
// worked out from the text's lines, not by the functions under test.
const assert = require("node:assert");
const { spawnSync } = require("node:child_process");
const fs = require("node:fs");
const path = require("node:path");
const { test } = require("node:test");
const { ROOT, scripts, film, told, grown } = require("./films.js");
const logic = require(path.join(ROOT, "page", "logic.js"));

const all = [
    ...scripts(),
    ...[...Array(24).keys()].map((i) => ({ name: `grown ${i}`, bytes: grown(i + 1, 1 + (i % 7), 1 + (i % (1 + (i % 7))), 2 + (i % 3), 160, i % 2 === 0) })),
].map(({ name, bytes }) => {
    const made = film(bytes);
    return { name, bytes, made, text: told(bytes), run: logic.readRun(made.text, made.bytes) };
});
const played = all.filter(({ run }) => run.refused === null);
const steps = played.flatMap((x) => x.text.steps.map((step, i) => ({ ...x, step, s: i + 1 })));

test("there is enough to look at", () => {
    assert.ok(all.length > 60 && played.length > 40 && steps.length > 4000, `${all.length} ${played.length} ${steps.length}`);
    assert.ok(steps.filter(({ step }) => / ok /.test(step.answer)).length > 2300);
});

test("a film holds the script's bytes and a line for each answer", () => {
    for (const { name, bytes, made, text, run } of all) {
        assert.ok(made.bytes.equals(bytes), name);
        assert.equal(run.steps.length, run.refused === null ? text.steps.length + 1 : 0, name);
        assert.equal(made.lines, logic.linesOf(bytes).length, name);
    }
});

test("a refused first line leaves no run", () => {
    const refused = all.filter(({ text }) => text.head[0].startsWith("no "));
    assert.ok(refused.length > 10);
    for (const { name, text, run } of refused) assert.equal(`no ${run.refused}`, text.head[0], name);
    // Where the line is bad its spaces are seen; where a number is out of range it stands as it is.
    const first = (line) => {
        const made = film(Buffer.from(`${line}\n`));
        return logic.readRun(made.text, made.bytes).first;
    };
    assert.deepEqual(["setting  3 2 1 2 ", "setting 32 1 0 1"].map(first), ["setting··3·2·1·2·", "setting 32 1 0 1"]);
});

test("setting, answers, holders, slips and mail are the text's", () => {
    for (const { name, text, run } of played) {
        const { n, m, f, kiosks } = run.setting;
        assert.equal(`gallery ${n} ${m} ${f} ${kiosks}`, text.head[0], name);
        assert.equal(`end ${run.end.accepted} ${run.end.holders} ${run.end.down}`, text.end[0], name);
    }
    let holders = 0;
    for (const { name, step, s, run } of steps) {
        const told = /ok \d+ (\d+)$/.exec(step.answer);
        holders = told ? Number(told[1]) : s === 1 ? 0 : holders;
        assert.equal(run.steps[s].answer, step.answer, name);
        assert.deepEqual(logic.tell(run, s), step.lines, `${name} ${s}`);
        assert.equal(run.steps[s].holders, holders, `${name} ${s}`);
        assert.equal(step.lines.filter((line) => /^kiosk \d+ holding /.test(line)).length, holders, `${name} ${s}`);
    }
});

// A party's slip among a step's lines: { owner: [kiosk, ticket] or null, down } or { ticket, seen, counts }.
function slipOf(lines, party, number) {
    const words = lines.find((line) => line.startsWith(`${party} ${number} `)).split(" ");
    if (party === "kiosk") return { ticket: words[4], seen: words[6], counts: words.slice(8) };
    return { owner: words[2] === "owner" ? words[3].split(",") : null, down: words[2] === "down" };
}

// The ticket of each answer and check that a kiosk takes at this step, by the mail one step before: "12 RESPONSE keeper 1 kiosk 2 owner 1,3".
function lookedAt(text, lines, s, number) {
    if (s < 2 || !/ ok /.test(text.steps[s - 1].answer) || !lines[s].startsWith("take ")) return [];
    const mail = text.steps[s - 2].lines.find((line) => line.startsWith(`mail ${lines[s].slice(5)} `)).split(" ");
    if (mail[5] !== "kiosk" || mail[6] !== String(number)) return [];
    return [mail[7] === "free" ? 0 : Number(mail[8].split(",").pop())];
}

test("each kiosk's slip shows its ticket and the largest that it was told", () => {
    let above = 0;
    for (const { name, bytes, text, run } of played) {
        const lines = bytes.toString("latin1").split("\n");
        for (const { number } of run.steps[0].kiosks) {
            assert.deepEqual(logic.ticketTexts(run.steps[0].kiosks[number - 1]), ["0", "seen 0"], name);
            let most = 0;
            text.steps.forEach((step, i) => {
                most = Math.max(most, ...lookedAt(text, lines, i + 1, number));
                const fallen = step.lines.includes(`kiosk ${number} fallen`);
                const { ticket } = slipOf(step.lines, "kiosk", number);
                const shown = logic.ticketTexts(run.steps[i + 1].kiosks[number - 1]);
                assert.deepEqual(shown, fallen ? ["", ""] : [ticket, `seen ${most}`], `${name} ${i + 1}`);
                if (!fallen && most > Number(ticket)) above += 1;
            });
        }
    }
    assert.ok(above > 100, String(above));
});

// Each pair "kiosk keeper" at which the two slips say different tickets.
function differing(lines, { n, kiosks }) {
    const found = [];
    for (let k = 1; k <= kiosks; k += 1) {
        for (let j = 1; j <= n; j += 1) {
            const [kiosk, keeper] = [slipOf(lines, "kiosk", k), slipOf(lines, "keeper", j)];
            const counted = kiosk.counts.includes(String(j)) ? kiosk.ticket : "none";
            const owned = keeper.owner && keeper.owner[0] === String(k) ? keeper.owner[1] : "none";
            if (counted !== owned) found.push(`${k} ${j}`);
        }
    }
    return found;
}

test("each place where the slips do not match is named once", () => {
    let count = 0;
    for (const { name, step, s, run } of steps) {
        const found = logic.mismatches(run, s);
        assert.deepEqual(found.map((x) => `${x.kiosk} ${x.keeper}`), differing(step.lines, run.setting), `${name} ${s}`);
        for (const { kiosk, keeper, says } of found) {
            const { owner, down } = slipOf(step.lines, "keeper", keeper);
            const has = down ? "is down" : owner ? `has owner kiosk ${owner[0]}, ticket ${owner[1]}` : "is free";
            const counts = slipOf(step.lines, "kiosk", kiosk).counts.includes(String(keeper));
            const one = `Kiosk ${kiosk} counts keeper ${keeper}, but keeper ${keeper} ${has}.`;
            const other = `Keeper ${keeper} ${has}, but kiosk ${kiosk} does not count keeper ${keeper}.`;
            assert.equal(says, counts ? one : other, `${name} ${s}`);
        }
        count += found.length;
    }
    assert.ok(count > 3000, String(count));
});

// The waiting messages by which the keeper or the kiosk of a mismatch learns of the other: the answer that the kiosk does not have and
// the yield that the keeper does not have yet; or, of a ticket that the kiosk has left, its release and anything with a newer one.
function learning(lines, kiosk, keeper) {
    const owned = Number(slipOf(lines, "keeper", keeper).owner[1]);
    const ticket = Number(slipOf(lines, "kiosk", kiosk).ticket);
    const tells = (line) => {
        const [, , kind, ...rest] = line.split(" ");
        const toKeeper = new RegExp(`^kiosk ${kiosk} keeper ${keeper} ticket (\\d+) waiting$`).exec(rest.join(" "));
        if (!toKeeper) return ticket === owned && rest.join(" ") === `keeper ${keeper} kiosk ${kiosk} owner ${kiosk},${owned} waiting`;
        if (ticket === owned) return kind === "YIELD" && Number(toKeeper[1]) === owned;
        return Number(toKeeper[1]) > owned || (kind === "RELEASE" && Number(toKeeper[1]) === owned);
    };
    return lines.filter((line) => line.startsWith("mail ") && tells(line)).map((line) => Number(line.split(" ")[1]));
}

// Whether event `row` is the last up to s that took the keeper from the kiosk with its ticket.
function tookAway(text, row, s, kiosk, keeper) {
    const { ticket } = slipOf(text.steps[s - 1].lines, "kiosk", kiosk);
    const has = (at) => {
        const { owner } = slipOf(text.steps[at - 1].lines, "keeper", keeper);
        return owner !== null && owner[0] === String(kiosk) && owner[1] === ticket;
    };
    return has(row - 1) && range(row, s).every((at) => !has(at));
}

const range = (from, to) => Array.from({ length: to - from + 1 }, (_, i) => from + i);

// The reasons, held to the text: messages that are on their way wait there, and all that do are named; an event that is named is in the
// script, and did what is said of it.
test("each has its reason, and the run shows it", () => {
    const seen = new Set();
    for (const { name, bytes, text, step, s, run } of steps) {
        const lines = bytes.toString("latin1").split("\n");
        for (const { kiosk, keeper, reason } of logic.mismatches(run, s)) {
            const where = `${name} ${s}: ${reason.text}`;
            seen.add(reason.why);
            const named = { fallen: `fall ${kiosk}`, down: `down ${keeper}`, restarted: `down ${keeper}`, "answered twice": `down ${keeper}`, dropped: `drop ${reason.message}`, late: `take ${reason.message}`, "told again": `take ${reason.message}` };
            if (reason.why === "on its way") assert.deepEqual(reason.messages, learning(step.lines, kiosk, keeper), where);
            else assert.equal(lines[reason.row], named[reason.why], where);
            if (reason.why === "down" || reason.why === "restarted") assert.ok(tookAway(text, reason.row, s, kiosk, keeper), where);
            if (reason.why === "answered twice") {
                assert.equal(lines[reason.given], `take ${reason.message}`, where);
                assert.ok(tookAway(text, reason.given, s, kiosk, keeper), where);
            }
            assert.ok(!reason.row || reason.row <= s, where);
        }
    }
    assert.deepEqual([...seen].sort(), ["answered twice", "down", "dropped", "fallen", "late", "on its way", "restarted", "told again"]);
});

// Small runs whose reasons are worked out by hand: the events, and what is said after the last.
const BY_HAND = [
    ["setting 1 1 0 2/try 1/take 1/take 2/exit 1/try 1", "Release 3 and request 4 are on their way."],
    ["setting 3 2 0 1/try 1/take 1/take 2/take 3/take 4/take 5", "Answer 6 is on its way, but kiosk 1 holds already."],
    ["setting 3 2 0 1/try 1/take 1/take 2/take 3/take 4/take 5/take 6", "Answer 6 came (event 7) when kiosk 1 already held."],
    ["setting 3 2 0 1/try 1/take 1/take 2/take 4/take 5/exit 1/take 6/take 7/take 8/take 3", "Request 3 came late (event 10): kiosk 1 had left ticket 1."],
    // the yield, taken before, is dropped: that is not why
    ["setting 2 2 0 2/try 1/try 2/take 1/take 4/take 2/take 5/take 7/take 8/drop 10/drop 8", "Answer 10 was dropped (event 9).", "Answer 6 is on its way."],
    // two requests with one ticket: the first was taken again
    [
        "setting 2 2 0 2/try 1/try 2/take 1/take 4/take 2/take 5/take 7/take 8/take 10/take 6/take 3/take 11/take 13/take 9/take 14/down 2/up 2/exit 1/take 17/take 2",
        "Release 16 is on its way.",
        "Keeper 2 restarted (event 16) and took request 2 again (event 20).",
    ],
    // kiosk 2 yielded, and counts the second answer of a keeper that was told twice
    [
        "setting 2 2 0 2/try 2/take 1/down 1/up 1/take 1/try 1/take 6/take 2/take 3/take 8/take 4/take 5/take 9",
        "Answer 12 is on its way.",
        "Answer 7 is on its way.",
        "Keeper 1 restarted (event 3) and answered twice; yield 9 gave the vote away (event 13).",
    ],
    // each kiosk's vote was lost at another restart
    [
        "setting 3 2 1 2/try 1/take 1/take 2/take 4/take 5/down 1/up 1/try 2/take 6/take 8/take 9/take 10/down 1/up 1",
        "Keeper 1 restarted (event 6) and forgot.",
        "Keeper 1 restarted (event 13) and forgot.",
    ],
];

test("reasons worked out by hand", () => {
    for (const [events, ...reasons] of BY_HAND) {
        const made = film(Buffer.from(events.replaceAll("/", "\n") + "\n"));
        const run = logic.readRun(made.text, made.bytes);
        assert.ok(run.steps.every((step) => step.ok), events);
        assert.deepEqual(logic.mismatches(run, run.steps.length - 1).map((x) => x.reason.text), reasons, events);
    }
});

test("each arrow has both ends, at each step", () => {
    for (const { name, bytes, text, run } of played) {
        const lines = bytes.toString("latin1").split("\n");
        const there = (party) => party.number >= 1 && party.number <= (party.party === "kiosk" ? run.setting.kiosks : run.setting.n);
        const first = new Map();
        const moved = [];
        text.steps.forEach((step, i) => {
            const s = i + 1;
            const mail = step.lines.filter((line) => line.startsWith("mail "));
            const number = (line) => line.split(" ")[1];
            mail.forEach((line) => first.has(number(line)) || first.set(number(line), s));
            if (/ ok /.test(step.answer) && /^(take|drop) /.test(lines[s])) moved.push(`${lines[s]} at ${s}`);
            const waiting = mail.filter((line) => line.endsWith(" waiting")).map((line) => `wait ${number(line)} at ${s + 1}`);
            const drawn = logic.arrows(run, s).map(({ message, row, end }) => {
                const where = `${name} ${s}: ${message.number} ${end}`;
                assert.ok(there(message.from) && there(message.to) && message.from.party !== message.to.party, where);
                assert.ok(message.sent === first.get(String(message.number)) && message.sent < row, where);
                return `${{ taken: "take", dropped: "drop", discarded: "drop", waiting: "wait" }[end]} ${message.number} at ${row}`;
            });
            assert.deepEqual(drawn.sort(), [...moved, ...waiting].sort(), `${name} ${s}`);
        });
    }
});

// The lines and texts of a chart, as far as the test looks at them.
const drawn = (svg, kind) => [...svg.matchAll(new RegExp(`<line class="${kind}" x1="(\\d+)" y1="(\\d+)" x2="([\\d.]+)" y2="(\\d+)"/>`, "g"))].map((m) => m.slice(1).map(Number));

test("the chart draws each arrow between its parties' lines", () => {
    for (const { name, run } of played) {
        const last = run.steps.length - 1;
        const svg = logic.svgOf(run, last);
        const columns = new Map(logic.partiesOf(run).map((party) => [logic.xOf(run, logic.sheetFor(run), party), party.party]));
        for (const kind of ["taken", "waiting"]) {
            const lines = drawn(svg, kind);
            assert.equal(lines.length, logic.arrows(run, last).filter((a) => a.end === kind).length, name);
            for (const [x1, y1, x2, y2] of lines) assert.ok(columns.has(x1) && columns.has(x2) && columns.get(x1) !== columns.get(x2) && y1 < y2, name);
        }
        assert.equal(drawn(svg, "dropped").length, logic.arrows(run, last).filter((a) => a.end === "dropped").length, name);
        assert.equal(svg.includes(" at once</text>"), run.end.holders > 1, name);
    }
});

// How often something begins along the steps.
const begins = (text, isSo) => text.steps.filter((step, i) => isSo(step.lines) && !(i > 0 && isSo(text.steps[i - 1].lines))).length;

test("the chart shows falls, downs, bars, crosses and refused rows", () => {
    for (const { name, bytes, text, run } of played) {
        const svg = logic.svgOf(run, run.steps.length - 1);
        const count = (kind) => svg.split(`class="${kind}"`).length - 1;
        const each = (of, party, words) => range(1, of).reduce((sum, i) => sum + begins(text, (lines) => lines.some((line) => line.startsWith(`${party} ${i} ${words}`))), 0);
        const dropped = bytes.toString("latin1").split("\n").filter((line, i) => line.startsWith("drop ") && / ok /.test(text.steps[i - 1].answer));
        assert.equal(count("fallen"), each(run.setting.kiosks, "kiosk", "fallen"), name);
        assert.equal(count("down"), each(run.setting.n, "keeper", "down"), name);
        assert.equal(count("holds"), each(run.setting.kiosks, "kiosk", "holding"), name);
        assert.equal(count("cross"), dropped.length, name);
        assert.equal(count("refused"), text.steps.filter((step) => / no /.test(step.answer)).length, name);
    }
});

test("the whole chart is well formed", () => {
    for (const { name, run } of played) {
        const svg = logic.svgOf(run, run.steps.length - 1);
        const open = [];
        for (const [, close, tag, self] of svg.matchAll(/<(\/?)([a-z]+)(?: [a-zA-Z0-9]+="[^"<&]*")*(\/?)>/g)) {
            if (close) assert.equal(open.pop(), tag, name);
            else if (!self) open.push(tag);
        }
        assert.deepEqual(open, [], name);
        assert.ok(!/[<>]/.test(svg.replace(/<\/?[a-z]+(?: [a-zA-Z0-9]+="[^"<&]*")*\/?>/g, "")), name);
        assert.match(svg, /^[\n\x20-\x7e…·]*$/, name);
    }
});

test("no script puts markup into the page", () => {
    const bad = ["</script><script>alert(1)</script>", "<img src=x onerror=alert(1)>", "&lt;b&gt;\"'`", "a\0b", "caf\xe9 \xff\xfe", "<!--", "${1}", "]]>", "try 1 <b>"];
    const bytes = Buffer.from(`setting 1 1 0 1\ntry 1\n${bad.join("\n")}\n`, "latin1");
    const { page, text, bytes: held } = film(bytes);
    const run = logic.readRun(text, held);
    const plain = film(Buffer.from("setting 1 1 0 1\ntry 1\n")).page;
    const tags = (html) => html.split(/<[/!a-z]/i).length;
    assert.equal(tags(page), tags(plain));
    bad.forEach((line) => assert.ok(plain.includes(line) || !page.includes(line), line));
    bad.forEach((line, i) => {
        const shown = run.steps[i + 2].line;
        assert.match(shown, /^[\x21-\x7e·]*$/);
        assert.equal(run.steps[i + 2].refusal, 16);
        assert.equal(shown, Array.from(line, (c) => (c === " " ? "·" : c < " " || c > "~" ? "\\x" + c.charCodeAt(0).toString(16).padStart(2, "0") : c)).join(""));
    });
    assert.equal(logic.svgOf(run, run.steps.length - 1).split("<script").length, 1);
    const refused = film(Buffer.from("<script>alert(1)</script>\n"));
    assert.equal(refused.page.includes("<script>alert"), false);
    assert.equal(logic.readRun(refused.text, refused.bytes).first, "<script>alert(1)</script>");
});

test("a text without its end is an error, and film takes no argument", () => {
    const { text, bytes } = film(Buffer.from("setting 1 1 0 1\ntry 1\n"));
    assert.throws(() => logic.readRun(text.split("end ")[0], bytes), /no end/);
    assert.throws(() => logic.readRun(text.replace("kiosk 1", "kisok 1"), bytes), /no line of the slips/);
    assert.throws(() => logic.readRun(text.replace(" seen 0", ""), bytes), /no line of the slips/);
    const refused = spawnSync(path.join(ROOT, "bin", "film"), ["x"], { input: "" });
    assert.deepEqual([refused.status, refused.stdout.length], [2, 0]);
});

test("2,000 event lines are handed on", () => {
    for (const events of [2000, 2001, 2500]) {
        const made = film(Buffer.from(`setting 1 1 0 1\n${"check 1\n".repeat(events - 1)}try 1 `));
        const run = logic.readRun(made.text, made.bytes);
        const bad = events === 2000 ? 1 : 0; // the last line, which has no newline
        assert.deepEqual([run.steps.length - 1, run.end.accepted, made.lines - 1], [2000, 2000 - bad, events]);
    }
});

test("the picture in the README is the page's, and its film is small", () => {
    const { run, made } = all.find(({ name }) => name === "two_holders.script");
    assert.equal(fs.readFileSync(path.join(ROOT, "docs", "two_holders.svg"), "utf8"), logic.svgOf(run, run.steps.length - 1));
    assert.ok(made.page.length < 200000, String(made.page.length));
});
