"use strict";
// The page's document: what logic.js gives, shown at one step. Text goes in as text; the only markup that is set is the chart's, which
// logic.js builds from numbers, its own words and escaped text.
(function () {
    const part = (id) => document.getElementById(id);
    const HANDED_ON = 2000;

    // Elements with their text or children.
    function element(name, attributes, ...children) {
        const made = document.createElement(name);
        for (const [key, value] of Object.entries(attributes)) made.setAttribute(key, value);
        made.append(...children);
        return made;
    }

    function notice(...texts) {
        part("notice").hidden = false;
        part("notice").replaceChildren(...texts.map((text) => element("span", {}, text)));
    }

    const bytes = Uint8Array.from(atob(part("bytes").textContent), (c) => c.charCodeAt(0));
    const lines = Number(part("script-lines").textContent);
    let run;
    try {
        run = readRun(part("text").textContent, bytes);
    } catch (e) {
        notice(`This page cannot be read: ${e.message}.`);
        document.body.classList.add("bare");
        return;
    }
    if (run.refused !== null || !run.setting) {
        const why = run.refused === 7 ? "the setting is out of range" : "it is not of the form “setting n m f kiosks”";
        notice(`The first line is refused, no ${run.refused}: ${why}. There is no run to show. The line: `, run.first === "" ? "(empty)" : run.first);
        document.body.classList.add("bare");
        return;
    }

    const lastStep = run.steps.length - 1;
    let geometry = null;
    let at = 0;
    let timer = null;
    let now = { shapes: [], height: 0 };

    // The chart: only the shapes near the part that is seen are drawn, so that a long run stays fluid.
    function drawHeads() {
        const width = widthOf(run, geometry);
        part("heads").setAttribute("width", width);
        part("heads").setAttribute("height", 30);
        part("heads").innerHTML = headsSvg(run, geometry, 20);
    }

    function drawChart(whole) {
        const score = part("score");
        const from = whole ? -1 : score.scrollTop - 300;
        const to = whole ? Infinity : score.scrollTop + score.clientHeight + 300;
        const seen = now.shapes.filter((shape) => shape.bottom >= from && shape.top <= to).map((shape) => shape.svg());
        const here = boxSvg("here", 0, yOf(geometry, at) - geometry.row / 2, widthOf(run, geometry), geometry.row);
        part("chart").innerHTML = `<defs>${MARKER}</defs>${here}${seen.join("")}`;
    }

    function layChart() {
        now = { shapes: shapes(run, at, geometry), height: heightOf(run, at, geometry) };
        const rows = yOf(geometry, lastStep) + geometry.row;
        part("chart").setAttribute("width", widthOf(run, geometry));
        part("chart").setAttribute("height", Math.max(now.height, rows));
        part("chart").setAttribute("aria-label", `Message sequence chart up to event ${at} of ${lastStep}. ${holdersText(run.steps[at])}.`);
        drawChart(false);
    }

    // The current row is kept in sight, and with it the party that does something there.
    function keepInSight() {
        const score = part("score");
        const y = yOf(geometry, at) + part("heads").clientHeight;
        const [top, bottom] = [score.scrollTop + 90, score.scrollTop + score.clientHeight - 110];
        if (y < top || y > bottom) score.scrollTop = y - score.clientHeight * 0.6;
        const party = actor(run, at);
        if (!party) return;
        const x = xOf(run, geometry, party);
        const room = score.clientWidth - part("lines").clientWidth;
        if (x < score.scrollLeft + 60 || x > score.scrollLeft + room - 60) score.scrollLeft = x - room / 2;
    }

    // The script's lines.
    function listLines() {
        const option = (step) => {
            const answer = step.row === 0 ? "start" : step.answer;
            const kind = step.ok ? "" : "no";
            const made = element("li", { role: "option", id: `line-${step.row}`, class: kind, "aria-selected": "false", title: `${step.line} ${answer}` });
            made.append(element("span", { class: "event" }, step.line === "" ? "(empty line)" : step.line), element("span", { class: "answer" }, answer));
            made.addEventListener("click", () => go(step.row));
            return made;
        };
        part("lines").replaceChildren(...run.steps.map(option));
    }

    function markLine(was) {
        const [before, after] = [part(`line-${was}`), part(`line-${at}`)];
        before.setAttribute("aria-selected", "false");
        after.setAttribute("aria-selected", "true");
        part("lines").setAttribute("aria-activedescendant", after.id);
        const [low, high] = [Math.min(was, at), Math.max(was, at)];
        for (let row = low; row <= high; row += 1) part(`line-${row}`).classList.toggle("later", row > at);
    }

    // The slips. A place that does not match has the number of its sentence in the list below: "≠2".
    const mark = (i, dangerous) => element("span", { class: dangerous ? "mark counts" : "mark" }, `≠${i + 1}`);

    const pair = (p) => `${p.kiosk},${p.ticket}`;

    function marks(differ, isHere) {
        return differ.flatMap((x, i) => (isHere(x) ? [mark(i, x.counted !== null)] : []));
    }

    function showKeepers(step, differ) {
        const row = (keeper) => {
            const here = marks(differ, (x) => x.keeper === keeper.number);
            const owner = keeper.up ? (keeper.owner ? pair(keeper.owner) : "free") : "down";
            return element(
                "tr",
                { class: keeper.up ? "" : "bad" },
                element("th", { scope: "row" }, String(keeper.number)),
                element("td", { class: here.length ? "differs" : "" }, owner, ...here),
                element("td", {}, keeper.line.map(pair).join("  ")),
            );
        };
        part("keepers").replaceChildren(...step.keepers.map(row));
    }

    function showKiosks(step, differ) {
        const row = (kiosk) => {
            const counted = kiosk.keepers.map((j) => {
                const here = marks(differ, (x) => x.kiosk === kiosk.number && x.keeper === j);
                return element("span", { class: here.length ? "counted differs" : "counted" }, String(j), ...here);
            });
            const missing = differ.flatMap((x, i) =>
                x.kiosk === kiosk.number && x.counted === null ? [element("span", { class: "counted differs" }, String(x.keeper), mark(i, false))] : [],
            );
            const not = missing.length ? ["not ", ...missing] : [];
            const none = counted.length + not.length === 0 && kiosk.section === "trying" ? ["none"] : [];
            const [ticket, seen] = ticketTexts(kiosk);
            return element(
                "tr",
                { class: kiosk.section },
                element("th", { scope: "row" }, String(kiosk.number)),
                element("td", { class: "section" }, kiosk.section),
                element("td", { class: "ticket" }, `${ticket} `, element("span", { class: "seen" }, seen)),
                element("td", {}, ...counted, ...not, ...none),
            );
        };
        part("kiosks").replaceChildren(...step.kiosks.map(row));
    }

    function showDiffering(differ) {
        const one = (x, i) => element("li", { class: x.counted !== null ? "counts" : "owns" }, mark(i, x.counted !== null), ` ${x.says} `, element("em", {}, x.reason.text));
        const none = element("li", { class: "none" }, "Nowhere: the two slips match.");
        part("differ").replaceChildren(...(differ.length ? differ.map(one) : [none]));
    }

    function showMail() {
        const mail = mailAt(run, at);
        const one = (m) => element("li", {}, element("b", {}, `${m.number} ${m.kind}`), ` ${mailText(m)}; sent by event ${m.sent}`);
        const waiting = mail.filter((m) => standing(m, at) === "waiting");
        const taken = mail.filter((m) => standing(m, at) === "taken");
        part("waiting").replaceChildren(...(waiting.length ? waiting.map(one) : [element("li", { class: "none" }, "None.")]));
        part("taken-part").hidden = taken.length === 0;
        part("taken-title").textContent = `${taken.length} taken and kept`;
        part("taken").replaceChildren(...taken.map(one));
    }

    function showStep(step, differ) {
        const count = differ.length === 1 ? "The slips do not match in 1 place." : differ.length ? `The slips do not match in ${differ.length} places.` : "The slips match.";
        const what = step.row === 0 ? [] : [`Event ${step.row} of ${lastStep}: `, step.line === "" ? "an empty line" : element("code", {}, step.line), ". "];
        part("step").replaceChildren(...what, `${answerText(step)} `, element("span", { class: "unseen" }, `${holdersText(step)}. ${count}`));
        part("step").className = step.ok ? "" : "no";
        part("holders").textContent = holdersText(step);
        part("holders").className = step.holders > 1 ? "two" : step.holders === 1 ? "one" : "";
        const over = lines - 1 > HANDED_ON ? ` Only the first ${HANDED_ON} of ${lines - 1} event lines are shown and counted here.` : "";
        part("end").textContent = at === lastStep && run.end ? `The end: ${endText(run.end)}${over}` : "";
    }

    function go(step) {
        const was = at;
        at = Math.max(0, Math.min(lastStep, step));
        const differ = mismatches(run, at);
        markLine(was);
        showStep(run.steps[at], differ);
        showKeepers(run.steps[at], differ);
        showKiosks(run.steps[at], differ);
        showDiffering(differ);
        showMail();
        keepInSight();
        layChart();
        for (const id of ["first", "back"]) part(id).disabled = at === 0;
        for (const id of ["next", "last"]) part(id).disabled = at === lastStep;
        if (location.hash !== `#${at}`) history.replaceState(null, "", `#${at}`);
        if (at === lastStep) pause();
    }

    const placeInAddress = () => Number((/^#(\d{1,7})$/.exec(location.hash) || [0, 0])[1]);

    function pause() {
        clearInterval(timer);
        timer = null;
        part("play-word").textContent = "Play";
        part("play").classList.remove("playing");
    }

    function play() {
        if (timer !== null) return pause();
        if (at === lastStep) go(0);
        timer = setInterval(() => go(at + 1), Number(part("pace").value));
        part("play-word").textContent = "Pause";
        part("play").classList.add("playing");
        return undefined;
    }

    function save() {
        const made = element("a", { download: "chart.svg", href: URL.createObjectURL(new Blob([svgOf(run, lastStep)], { type: "image/svg+xml" })) });
        made.click();
        setTimeout(() => URL.revokeObjectURL(made.href), 10000);
    }

    const KEYS = new Map([
        ["ArrowRight", () => go(at + 1)],
        ["ArrowLeft", () => go(at - 1)],
        ["ArrowDown", () => go(at + 1)],
        ["ArrowUp", () => go(at - 1)],
        ["PageDown", () => go(at + 10)],
        ["PageUp", () => go(at - 10)],
        ["Home", () => go(0)],
        ["End", () => go(lastStep)],
        [" ", play],
    ]);

    // A key keeps its own meaning where it has one: in the choice of the pace, on a button, and for scrolling the slips.
    function onKey(e) {
        const name = e.target.tagName;
        const act = KEYS.get(e.key);
        if (!act || e.altKey || e.ctrlKey || e.metaKey || name === "SELECT") return;
        if (e.key === " " && (name === "BUTTON" || name === "SUMMARY")) return;
        if (e.target === part("side") && e.key !== "ArrowLeft" && e.key !== "ArrowRight") return;
        e.preventDefault();
        act();
    }

    // Space and size.
    function fit() {
        geometry = geometryFor(run, part("score").clientWidth - part("lines").offsetWidth);
        drawHeads();
        layChart();
    }

    part("setting").textContent = settingText(run.setting);
    document.title = `${settingText(run.setting)}: a run of the gallery`;
    if (lines - 1 > HANDED_ON) notice(`The script has ${lines - 1} event lines; this page shows the first ${HANDED_ON}.`);
    document.head.append(element("style", {}, CHART_STYLE));
    listLines();
    for (let row = 1; row <= lastStep; row += 1) part(`line-${row}`).classList.add("later");
    part("first").addEventListener("click", () => go(0));
    part("back").addEventListener("click", () => go(at - 1));
    part("next").addEventListener("click", () => go(at + 1));
    part("last").addEventListener("click", () => go(lastStep));
    part("play").addEventListener("click", play);
    part("pace").addEventListener("change", () => timer !== null && (pause(), play()));
    part("save").addEventListener("click", save);
    part("print").addEventListener("click", () => print());
    part("to-words").addEventListener("click", () => {
        part("words").open = true;
        part("words").scrollIntoView();
        part("words").querySelector("summary").focus();
    });
    document.addEventListener("keydown", onKey);
    addEventListener("hashchange", () => go(placeInAddress()));
    addEventListener("resize", fit);
    addEventListener("beforeprint", () => drawChart(true));
    addEventListener("afterprint", () => drawChart(false));
    let waits = false;
    part("score").addEventListener("scroll", () => {
        if (waits) return;
        waits = true;
        requestAnimationFrame(() => {
            waits = false;
            drawChart(false);
        });
    });
    fit();
    go(placeInAddress());
})();
