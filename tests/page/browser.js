"use strict";
// The page in a real browser, run by `./test --page`: the film of two_holders is opened, stepped through by keys, buttons, clicks and its
// address, read, saved and printed, at a projector's and a phone's size, light and dark; the film of every script is opened; and nothing
// may be said on the console or asked of the network. Pictures go to target/page/.
const assert = require("node:assert");
const fs = require("node:fs");
const path = require("node:path");
const { pathToFileURL } = require("node:url");
const { find, Browser } = require("./chromium.js");
const { ROOT, scripts, film, grown } = require("./films.js");
const logic = require(path.join(ROOT, "page", "logic.js"));

const OUT = path.join(ROOT, "target", "page");
const PROJECTOR = { width: 1024, height: 768 };
const PHONE = { width: 390, height: 844, phone: true };

const address = (name, place = "") => pathToFileURL(path.join(OUT, `${name}.html`)).href + place;
const shown = (id) => `document.getElementById("${id}").innerText.trim()`;
const listed = (id) => `[...document.querySelectorAll("#${id} > *")].map((x) => x.innerText.replace(/\\s+/g, " ").trim())`;
const chosen = 'document.querySelector("#lines [aria-selected=true]").id';

function put(name, bytes) {
    const made = film(bytes);
    fs.writeFileSync(path.join(OUT, `${name}.html`), made.page, "latin1");
    return logic.readRun(made.text, made.bytes);
}

// No error, no warning, and no request but the page itself.
function quiet(page, name) {
    assert.deepEqual(page.errors, [], name);
    assert.deepEqual(page.requests.filter((url) => !url.startsWith("file:") && !url.startsWith("blob:")), [], name);
    assert.equal(page.requests.filter((url) => url.startsWith("file:")).length, 1, name);
}

async function until(page, expression, wanted) {
    for (let i = 0; i < 200; i += 1) {
        if ((await page.read(expression)) === wanted) return;
        await new Promise((resolve) => setTimeout(resolve, 50));
    }
    assert.equal(await page.read(expression), wanted);
}

async function steps(browser) {
    const page = await browser.open(address("two_holders"), PROJECTOR);
    assert.equal(await page.read(shown("holders")), "Holders: 0");
    for (let s = 1; s <= 12; s += 1) await page.press("ArrowRight");
    assert.equal(await page.read("location.hash"), "#12");
    assert.equal(await page.read(shown("holders")), "Holders: 2 (kiosks 1, 2)");
    assert.equal(await page.read('getComputedStyle(document.getElementById("holders"), "::before").content'), '"⚠ "');
    assert.deepEqual(await page.read(listed("differ")), ["≠1 Kiosk 1 counts keeper 1, but keeper 1 has owner kiosk 2, ticket 1. Keeper 1 restarted (event 6) and forgot."]);
    assert.match(await page.read(shown("end")), /^The end: 12 events accepted; at most 2 holders at once; at most 1 keeper down within one epoch\.$/);
    assert.equal(await page.read('document.querySelectorAll("#chart .band").length'), 1);
    await page.picture(path.join(OUT, "projector_end.png"));
    await page.press("ArrowRight");
    assert.equal(await page.read("location.hash"), "#12");
    await page.press("ArrowLeft");
    assert.equal(await page.read(shown("holders")), "Holders: 1 (kiosk 1)");
    await page.press("Home");
    assert.equal(await page.read("location.hash"), "#0");
    await page.press("End");
    assert.equal(await page.read("location.hash"), "#12");
    await page.read('document.getElementById("line-6").click()');
    assert.equal(await page.read("location.hash"), "#6");
    assert.deepEqual(await page.read(listed("differ")), ["≠1 Kiosk 1 counts keeper 1, but keeper 1 is down. Keeper 1 went down (event 6)."]);
    for (const [id, hash] of [["next", "#7"], ["back", "#6"], ["first", "#0"], ["last", "#12"]]) {
        await page.read(`document.getElementById("${id}").click()`);
        assert.equal(await page.read("location.hash"), hash);
    }
    await page.read('location.hash = "#3"');
    await until(page, chosen, "line-3");
    assert.deepEqual(await page.read(listed("differ")), [
        "≠1 Keeper 1 has owner kiosk 1, ticket 1, but kiosk 1 does not count keeper 1. Answer 4 is on its way.",
        "≠2 Keeper 2 has owner kiosk 1, ticket 1, but kiosk 1 does not count keeper 2. Answer 5 is on its way.",
    ]);
    await page.picture(path.join(OUT, "projector_3.png"));
    await page.read('document.getElementById("pace").value = "400"');
    await page.press(" ");
    await until(page, chosen, "line-5");
    await page.press(" ");
    const stopped = await page.read(chosen);
    await new Promise((resolve) => setTimeout(resolve, 900));
    assert.equal(await page.read(chosen), stopped);
    quiet(page, "two_holders");
    await page.close();
}

// A place in the address opens there; one that is no place opens the start, one too far the end.
async function places(browser) {
    for (const [place, line] of [["#7", "line-7"], ["#12", "line-12"], ["#99", "line-12"], ["#x", "line-0"], ["", "line-0"]]) {
        const page = await browser.open(address("two_holders", place), PROJECTOR);
        assert.equal(await page.read(chosen), line);
        await page.close();
    }
}

// The course's fourth lesson: kiosk 3 has ticket 1 when it is told of ticket 5, and takes 6 at its next try.
async function newcomer(browser) {
    put("newcomer", scripts().find((script) => script.name === "newcomer.script").bytes);
    for (const [place, slip] of [["#21", "3 trying 1 seen 0 none"], ["#26", "3 holding 1 seen 5 1"], ["#37", "3 trying 6 seen 5 none"]]) {
        const page = await browser.open(address("newcomer", place), PROJECTOR);
        assert.equal((await page.read(listed("kiosks")))[2], slip);
        if (place === "#37") await page.picture(path.join(OUT, "newcomer.png"));
        quiet(page, `newcomer ${place}`);
        await page.close();
    }
}

async function saves(browser) {
    const page = await browser.open(address("two_holders"), PROJECTOR);
    await browser.send("Browser.setDownloadBehavior", { behavior: "allow", downloadPath: OUT });
    const file = path.join(OUT, "chart.svg");
    fs.rmSync(file, { force: true });
    await page.read('document.getElementById("save").click()');
    for (let i = 0; i < 100 && !(fs.existsSync(file) && fs.statSync(file).size); i += 1) await new Promise((resolve) => setTimeout(resolve, 50));
    assert.equal(fs.readFileSync(file, "utf8"), fs.readFileSync(path.join(ROOT, "docs", "two_holders.svg"), "utf8"));
    await page.press("End");
    await page.print(path.join(OUT, "two_holders.pdf"));
    quiet(page, "save");
    await page.close();
    const picture = await browser.open(pathToFileURL(file).href, PROJECTOR);
    assert.equal(await picture.read("document.documentElement.tagName"), "svg");
    quiet(picture, "chart.svg");
    await picture.close();
}

// At each size and in each light nothing is wider than the page, and pictures are taken.
async function sizes(browser) {
    for (const [name, options] of Object.entries({ projector: PROJECTOR, projector_dark: { ...PROJECTOR, dark: true }, phone: PHONE, phone_dark: { ...PHONE, dark: true } })) {
        const page = await browser.open(address("two_holders", "#12"), options);
        assert.ok((await page.read("document.documentElement.scrollWidth")) <= options.width, name);
        await page.picture(path.join(OUT, `${name}.png`));
        quiet(page, name);
        await page.close();
    }
}

// For keyboard and screen reader: every control has a name, the list is one stop with its choice said, what happens is announced.
async function reachable(browser) {
    const page = await browser.open(address("two_holders", "#12"), PROJECTOR);
    await page.send("Accessibility.enable");
    const { nodes } = await page.send("Accessibility.getFullAXTree");
    const named = (role) => nodes.filter((node) => !node.ignored && node.role?.value === role).map((node) => node.name?.value || "");
    for (const role of ["button", "combobox", "listbox", "image", "region"]) assert.ok(named(role).length && named(role).every(Boolean), `${role} ${named(role)}`);
    assert.deepEqual(named("button").slice(0, 6), ["What these words mean", "To the start", "One event back", "Play", "One event on", "To the end"]);
    assert.equal(named("option").length, 16); // 13 lines, 3 paces
    assert.equal(await page.read('document.getElementById("lines").getAttribute("aria-activedescendant")'), "line-12");
    assert.equal(await page.read('document.getElementById("step").getAttribute("aria-live")'), "polite");
    assert.ok((await page.read('document.querySelectorAll("th[scope]").length')) > 7);
    await page.read('document.getElementById("to-words").click()');
    assert.equal(await page.read("document.activeElement.textContent"), "What these words mean");
    assert.match(await page.read(shown("words")), /keeper\s+a server: /);
    await page.close();
}

// The film of every script opens, shows its last step and says nothing on the console.
async function all(browser) {
    for (const { name, bytes } of scripts()) {
        const run = put("script", bytes);
        const page = await browser.open(address("script", "#9999"), PROJECTOR);
        if (run.refused === null) {
            const last = run.steps.length - 1;
            assert.equal(await page.read(chosen), `line-${last}`, name);
            assert.equal((await page.read(listed("differ"))).filter((text) => text.startsWith("≠")).length, logic.mismatches(run, last).length, name);
        } else {
            assert.match(await page.read(shown("notice")), new RegExp(`^The first line is refused, no ${run.refused}: `), name);
        }
        quiet(page, name);
        await page.close();
    }
}

// A script puts no element into the page, and none of it runs.
async function hostile(browser) {
    const bad = ["</script><script>window.hit=1</script>", "<img src=x onerror=window.hit=1>", "<b>&amp;\"'", "a\0b\xff"];
    put("hostile", Buffer.from(`setting 1 1 0 1\n${bad.join("\n")}\n`, "latin1"));
    const page = await browser.open(address("hostile", "#1"), PROJECTOR);
    assert.equal(await page.read("typeof window.hit"), "undefined");
    assert.equal(await page.read('document.querySelectorAll("main img, main b, main script").length'), 0);
    assert.match(await page.read(shown("step")), /^Event 1 of 4: <\/script><script>window\.hit=1<\/script>\. Refused, 16/);
    quiet(page, "hostile");
    await page.close();
    put("hostile", Buffer.from(`${bad[0]}\n`));
    const first = await browser.open(address("hostile"), PROJECTOR);
    assert.equal(await first.read("typeof window.hit"), "undefined");
    assert.match(await first.read(shown("notice")), /<\/script><script>/);
    quiet(first, "hostile first line");
    await first.close();
}

// 2,000 events and 7 keepers: the time of a step, and of a redraw while scrolling.
async function fluid(browser) {
    put("long", Buffer.concat([grown(5, 7, 5, 3, 2000, false), Buffer.from("check 1\n".repeat(10))]));
    const page = await browser.open(address("long", "#1500"), PROJECTOR);
    assert.match(await page.read(shown("notice")), /2010 event lines; this page shows the first 2000/);
    const timed = (act) => `(async () => {
        const times = [];
        for (let i = 0; i < 40; i += 1) {
            const from = performance.now();
            ${act};
            document.body.offsetHeight;
            times.push(performance.now() - from);
            await new Promise((resolve) => requestAnimationFrame(resolve));
        }
        return times.sort((a, b) => a - b)[20];
    })()`;
    const step = await page.read(timed('document.getElementById(i % 2 ? "next" : "back").click()'));
    const scroll = await page.read(timed('document.getElementById("score").scrollTop = 1000 * i; document.getElementById("score").dispatchEvent(new Event("scroll"))'));
    console.log(`page: of 2,000 events and 7 keepers a step takes ${step.toFixed(1)} ms, a scroll ${scroll.toFixed(1)} ms (medians)`);
    assert.ok(step < 200, `${step} ms`);
    await page.picture(path.join(OUT, "long.png"));
    quiet(page, "long");
    await page.close();
}

async function main() {
    const name = find();
    if (!name) {
        console.log("page: there is no Chromium here, so the page is not run in a browser; tests/page/logic.test.js tries its logic");
        process.exitCode = 1;
        return;
    }
    fs.mkdirSync(OUT, { recursive: true });
    put("two_holders", scripts().find((script) => script.name === "two_holders.script").bytes);
    const browser = new Browser(name);
    try {
        for (const part of [steps, places, newcomer, saves, sizes, reachable, all, hostile, fluid]) {
            await part(browser);
            console.log(`page: ${part.name} ok`);
        }
    } finally {
        await browser.close();
    }
}

main();
