"use strict";
// Films of scripts, for the page's tests: what bin/film writes, taken apart; the text of `slips mail` step by step, read here apart from
// the page's own reading; and scripts that grow from what waits, so that most of their events are accepted.
const { execFileSync } = require("node:child_process");
const fs = require("node:fs");
const path = require("node:path");

const ROOT = path.join(__dirname, "..", "..");

const run = (program, words, input) => execFileSync(program, words, { input, maxBuffer: 1 << 30 });

// The launcher builds the program where it must; then it is run as it is, which is quicker.
run(path.join(ROOT, "bin", "slips"), [], "");
const SLIPS = path.join(ROOT, "crates", "slips", "out", "slips");

// The scripts of tests/scripts: { name, bytes }.
function scripts() {
    const folder = path.join(ROOT, "tests", "scripts");
    const names = fs.readdirSync(folder).filter((name) => name.endsWith(".script"));
    return names.map((name) => ({ name, bytes: fs.readFileSync(path.join(folder, name)) }));
}

const html = (bytes) => run(path.join(ROOT, "bin", "film"), [], bytes).toString("latin1");

// What stands in a film's element of data.
function data(page, id) {
    const found = page.split(`<script type="text/plain" id="${id}">\n`);
    if (found.length !== 2) throw new Error(`${found.length - 1} elements ${id}`);
    return found[1].split("</script>")[0];
}

// A film: the page, the script's bytes in it, its text, and the number of lines that it says the script has.
function film(bytes) {
    const page = html(bytes);
    return { page, bytes: Buffer.from(data(page, "bytes"), "base64"), text: data(page, "text"), lines: Number(data(page, "script-lines")) };
}

// The text of `slips mail`: the lines before the first event, for each event its answer with the lines behind it, and the end.
function told(bytes) {
    const [head, steps, end] = [[], [], []];
    for (const line of run(SLIPS, ["mail"], bytes).toString("latin1").split("\n")) {
        if (/^\d+ (ok|no) /.test(line)) steps.push({ answer: line, lines: [] });
        else if (/^(keeper|kiosk|mail) /.test(line)) steps[steps.length - 1].lines.push(line);
        else if (steps.length === 0) head.push(line);
        else end.push(line);
    }
    return { head: head.filter(Boolean), steps, end: end.filter(Boolean) };
}

// Numbers that look random and are the same each time.
function random(seed) {
    let state = seed;
    return (below) => {
        state = (Math.imul(state, 1664525) + 1013904223) >>> 0;
        return Math.floor((state / 4294967296) * below);
    };
}

// A script of so many events for n keepers, threshold m and so many kiosks. Each round takes some of what waits, lets holders go and
// others try, and now and then restarts a keeper, misses or checks. A rough one also loses messages and kiosks, and keepers stay down.
function grown(seed, n, m, kiosks, events, rough) {
    const below = random(seed);
    const lines = [`setting ${n} ${m} 0 ${kiosks}`];
    while (lines.length <= events) {
        const { steps } = told(lines.join("\n") + "\n");
        const slips = steps.length ? steps[steps.length - 1].lines : [...Array(kiosks).keys()].map((k) => `kiosk ${k + 1} remainder`);
        const all = (pattern) => slips.flatMap((line) => (pattern.exec(line) || []).slice(1));
        const waiting = all(/^mail (\d+) .* waiting$/);
        for (const k of all(/^kiosk (\d+) holding/)) if (below(2)) lines.push(`exit ${k}`);
        for (const k of all(/^kiosk (\d+) remainder/)) if (below(2)) lines.push(`try ${k}`);
        for (let i = 0; i < 9 && waiting.length; i += 1) {
            lines.push(`${rough && !below(9) ? "drop" : "take"} ${waiting.splice(below(Math.min(waiting.length, 9)), 1)[0]}`);
        }
        all(/^mail (\d+) .* taken$/).slice(0, -150).forEach((i) => lines.push(`drop ${i}`));
        const [j, now] = [1 + below(n), below(16)];
        if (now === 0) lines.push(`down ${j}`);
        if (now === 0 && !rough) lines.push(`up ${j}`);
        if (now < 4 && rough) lines.push(`up ${1 + below(n)}`);
        if (now === 7) lines.push(`check ${j}`);
        if (now === 8) lines.push(`miss ${j}`);
        if (rough && now === 9 && !below(3)) lines.push(`fall ${1 + below(kiosks)}`);
    }
    return Buffer.from(lines.slice(0, events + 1).join("\n") + "\n");
}

module.exports = { ROOT, scripts, film, told, grown };
