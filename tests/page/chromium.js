"use strict";
// A headless Chromium driven over a pipe by its DevTools protocol, with nothing but node: enough to open a page, press keys, read what
// it shows, catch what it saves and take pictures.
const { spawn, spawnSync } = require("node:child_process");
const fs = require("node:fs");
const os = require("node:os");
const path = require("node:path");

const NAMES = ["chromium", "chromium-browser", "google-chrome"];

// The browser's name, or null where there is none.
function find() {
    return NAMES.find((name) => spawnSync(name, ["--version"], { stdio: "ignore" }).status === 0) || null;
}

class Browser {
    constructor(name) {
        this.home = fs.mkdtempSync(path.join(os.tmpdir(), "page-"));
        const options = ["--headless=new", "--no-sandbox", "--disable-gpu", "--hide-scrollbars", "--disable-background-networking", `--user-data-dir=${this.home}`];
        this.process = spawn(name, [...options, "--remote-debugging-pipe", "about:blank"], { stdio: ["ignore", "ignore", "ignore", "pipe", "pipe"] });
        this.calls = new Map();
        this.listeners = [];
        this.last = 0;
        let got = "";
        this.process.stdio[4].setEncoding("utf8").on("data", (data) => {
            const parts = (got + data).split("\0");
            got = parts.pop();
            parts.forEach((part) => this.receive(JSON.parse(part)));
        });
    }

    receive(message) {
        const call = this.calls.get(message.id);
        this.calls.delete(message.id);
        if (call && message.error) call.reject(new Error(`${call.method}: ${message.error.message}`));
        else if (call) call.resolve(message.result);
        else this.listeners.forEach((listener) => listener(message));
    }

    send(method, params = {}, sessionId = undefined) {
        this.last += 1;
        const id = this.last;
        this.process.stdio[3].write(JSON.stringify({ id, method, params, sessionId }) + "\0");
        return new Promise((resolve, reject) => this.calls.set(id, { method, resolve, reject }));
    }

    // A page of its own, on which every error is noted.
    async open(url, { width, height, dark, phone }) {
        const { targetId } = await this.send("Target.createTarget", { url: "about:blank" });
        const { sessionId } = await this.send("Target.attachToTarget", { targetId, flatten: true });
        const page = new Page(this, targetId, sessionId);
        for (const domain of ["Page", "Runtime", "Log", "Network"]) await page.send(`${domain}.enable`);
        await page.send("Emulation.setDeviceMetricsOverride", { width, height, deviceScaleFactor: 1, mobile: Boolean(phone) });
        await page.send("Emulation.setEmulatedMedia", { features: [{ name: "prefers-color-scheme", value: dark ? "dark" : "light" }] });
        await page.go(url);
        return page;
    }

    async close() {
        const ended = new Promise((resolve) => this.process.on("exit", resolve));
        await this.send("Browser.close").catch(() => {});
        await ended;
        fs.rmSync(this.home, { recursive: true, force: true });
    }
}

class Page {
    constructor(browser, target, session) {
        Object.assign(this, { browser, target, session, errors: [], requests: [] });
        browser.listeners.push((message) => message.sessionId === session && this.note(message));
    }

    note({ method, params }) {
        if (method === "Runtime.exceptionThrown") this.errors.push(params.exceptionDetails.exception?.description || params.exceptionDetails.text);
        if (method === "Runtime.consoleAPICalled" && ["error", "warning"].includes(params.type)) this.errors.push(JSON.stringify(params.args));
        if (method === "Log.entryAdded" && ["error", "warning"].includes(params.entry.level)) this.errors.push(params.entry.text);
        if (method === "Network.requestWillBeSent") this.requests.push(params.request.url);
    }

    send(method, params) {
        return this.browser.send(method, params, this.session);
    }

    async go(url) {
        const loaded = new Promise((resolve) => {
            this.browser.listeners.push((m) => m.sessionId === this.session && m.method === "Page.loadEventFired" && resolve());
        });
        await this.send("Page.navigate", { url });
        await loaded;
    }

    // What an expression gives on the page.
    async read(expression) {
        const { result, exceptionDetails } = await this.send("Runtime.evaluate", { expression, returnByValue: true, awaitPromise: true });
        if (exceptionDetails) throw new Error(exceptionDetails.exception?.description || exceptionDetails.text);
        return result.value;
    }

    async press(key) {
        const text = key === " " ? { text: " " } : {};
        await this.send("Input.dispatchKeyEvent", { type: "keyDown", key, ...text });
        await this.send("Input.dispatchKeyEvent", { type: "keyUp", key });
    }

    async picture(file) {
        const { data } = await this.send("Page.captureScreenshot", { format: "png" });
        fs.writeFileSync(file, Buffer.from(data, "base64"));
    }

    async print(file) {
        const { data } = await this.send("Page.printToPDF", { printBackground: true, landscape: true });
        fs.writeFileSync(file, Buffer.from(data, "base64"));
    }

    close() {
        return this.browser.send("Target.closeTarget", { targetId: this.target });
    }
}

module.exports = { find, Browser };
