// Browsers that a test drives: Chromium by its pipe for debugging, Firefox by Marionette. Both run
// without a window and without a library.
import { spawn } from "node:child_process";
import { mkdtempSync, rmSync, writeFileSync } from "node:fs";
import { connect, createServer } from "node:net";
import { tmpdir } from "node:os";
import { join } from "node:path";

const SECONDS = 120;

/** A promise that is rejected if it takes too long. */
function within(seconds, what, promise) {
    let timer;
    const late = new Promise((_, reject) => {
        timer = setTimeout(() => reject(new Error(`no ${what} in ${seconds} s`)), seconds * 1000);
    });
    return Promise.race([promise, late]).finally(() => clearTimeout(timer));
}

/** What both browsers share: a process, a folder of its own, and answers by number. */
class Browser {
    constructor() {
        this.folder = mkdtempSync(join(tmpdir(), "page-"));
        this.number = 0;
        this.waiting = new Map();
    }

    start(program, words, stdio) {
        this.process = spawn(program, words, { stdio, env: { ...process.env, HOME: this.folder } });
        this.ended = new Promise((resolve) => { this.process.on("exit", resolve); });
        this.process.on("error", () => {});
    }

    wait(number, what) {
        return within(SECONDS, what, new Promise((resolve, reject) => {
            this.waiting.set(number, { resolve, reject });
        }));
    }

    settle(number, fault, result) {
        const it = this.waiting.get(number);
        this.waiting.delete(number);
        if (fault) it?.reject(new Error(fault));
        else it?.resolve(result);
    }

    /** Runs an async function in the page, and returns what it returns. */
    run(call, ...words) {
        return this.evaluate(`(${call})(...${JSON.stringify(words)})`);
    }

    async close() {
        this.process.kill("SIGKILL");
        await this.ended;
        rmSync(this.folder, { recursive: true, force: true, maxRetries: 5 });
    }
}

/** Chromium. */
export class Chromium extends Browser {
    async open(page) {
        const words = ["--headless=new", "--no-sandbox", "--disable-gpu", "--no-first-run",
            "--disable-dev-shm-usage", "--disable-background-networking",
            `--user-data-dir=${this.folder}/profile`, "--remote-debugging-pipe", "about:blank"];
        this.start("chromium", words, ["ignore", "ignore", "ignore", "pipe", "pipe"]);
        let text = "";
        this.process.stdio[4].on("data", (some) => {
            const parts = (text + some).split("\0");
            text = parts.pop();
            for (const it of parts) this.hear(JSON.parse(it));
        });
        this.process.stdio[3].on("error", () => {});
        const { targetId } = await this.ask("Target.createTarget", { url: "about:blank" });
        const to = { targetId, flatten: true };
        this.session = (await this.ask("Target.attachToTarget", to)).sessionId;
        this.faults = [];
        await this.ask("Runtime.enable");
        await this.ask("Page.enable");
        await this.go(page);
    }

    hear({ id, error, result, method, params }) {
        if (id !== undefined) this.settle(id, error?.message, result);
        if (method === "Page.loadEventFired") this.loaded?.();
        if (method === "Runtime.exceptionThrown") this.faults.push(params.exceptionDetails.text);
    }

    ask(method, params = {}) {
        const id = ++this.number;
        const sessionId = this.session;
        this.process.stdio[3].write(`${JSON.stringify({ id, method, params, sessionId })}\0`);
        return this.wait(id, method);
    }

    async go(page) {
        const loaded = new Promise((resolve) => { this.loaded = resolve; });
        await this.ask("Page.navigate", { url: page });
        await within(SECONDS, "page", loaded);
    }

    async evaluate(expression) {
        const words = { expression, awaitPromise: true, returnByValue: true };
        const { result, exceptionDetails: fault } = await this.ask("Runtime.evaluate", words);
        if (fault) throw new Error(fault.exception?.description ?? fault.text);
        return result.value;
    }

    async press(key) {
        const codes = { Tab: 9, Enter: 13, " ": 32, ArrowRight: 39 };
        const text = { Enter: "\r", " ": " " }[key];
        const it = { key, code: key === " " ? "Space" : key, windowsVirtualKeyCode: codes[key] };
        await this.ask("Input.dispatchKeyEvent", { type: "keyDown", ...it, text });
        await this.ask("Input.dispatchKeyEvent", { type: "keyUp", ...it });
    }

    async narrow(width) {
        const mobile = false;
        await this.ask("Emulation.setDeviceMetricsOverride",
            { width, height: 800, deviceScaleFactor: 1, mobile });
    }

    async dark() {
        const features = [{ name: "prefers-color-scheme", value: "dark" }];
        await this.ask("Emulation.setEmulatedMedia", { features });
    }
}

const PREFERENCES = {
    "app.update.enabled": false, "browser.shell.checkDefaultBrowser": false,
    "browser.aboutwelcome.enabled": false, "datareporting.policy.dataSubmissionEnabled": false,
    "toolkit.telemetry.reportingpolicy.firstRun": false, "network.captive-portal-service.enabled":
    false, "network.connectivity-service.enabled": false, "browser.startup.page": 0,
};
const KEYS = { Tab: "\uE004", Enter: "\uE007", " ": " ", ArrowRight: "\uE014" };

/** A port of this machine that nobody uses. */
function freePort() {
    return new Promise((resolve) => {
        const server = createServer().listen(0, "127.0.0.1", () => {
            const { port } = server.address();
            server.close(() => resolve(port));
        });
    });
}

/** Firefox. */
export class Firefox extends Browser {
    async open(page) {
        const port = await freePort();
        const set = { ...PREFERENCES, "marionette.port": port };
        const lines = Object.entries(set).map(([name, it]) =>
            `user_pref(${JSON.stringify(name)}, ${JSON.stringify(it)});\n`);
        writeFileSync(join(this.folder, "user.js"), lines.join(""));
        const words = ["--headless", "--marionette", "--remote-allow-system-access", "--no-remote",
            "--profile", this.folder];
        this.start("firefox-esr", words, "ignore");
        this.socket = await within(SECONDS, "Marionette", this.connected(port));
        this.faults = [];
        await this.ask("WebDriver:NewSession", { capabilities: {} });
        await this.ask("WebDriver:SetTimeouts", { script: SECONDS * 1000 });
        await this.go(page);
    }

    /** Connects as soon as Firefox listens. */
    async connected(port) {
        for (;;) {
            const socket = connect(port, "127.0.0.1");
            const isOpen = await new Promise((resolve) => {
                socket.once("connect", () => resolve(true));
                socket.once("error", () => resolve(false));
            });
            if (isOpen) {
                this.listen(socket);
                return socket;
            }
            await new Promise((resolve) => { setTimeout(resolve, 100); });
        }
    }

    listen(socket) {
        let left = Buffer.alloc(0);
        socket.on("error", () => {});
        socket.on("data", (some) => {
            left = Buffer.concat([left, some]);
            for (;;) {
                const colon = left.indexOf(":");
                const end = colon + 1 + Number(left.subarray(0, colon).toString());
                if (colon < 0 || left.length < end) return;
                const said = JSON.parse(left.subarray(colon + 1, end).toString());
                left = left.subarray(end);
                if (Array.isArray(said)) this.settle(said[1], said[2]?.message, said[3]);
            }
        });
    }

    ask(name, params = {}) {
        const number = ++this.number;
        const text = JSON.stringify([0, number, name, params]);
        this.socket.write(`${Buffer.byteLength(text)}:${text}`);
        return this.wait(number, name);
    }

    async go(page) {
        await this.ask("WebDriver:Navigate", { url: page });
    }

    async evaluate(expression) {
        const script = `const done = arguments[arguments.length - 1];
            (async () => (${expression}))().then((it) => done({ it: it ?? null }),
                (fault) => done({ fault: String(fault) }));`;
        const { value } = await this.ask("WebDriver:ExecuteAsyncScript", { script, args: [] });
        if (value.fault) throw new Error(value.fault);
        return value.it;
    }

    async press(key) {
        const value = KEYS[key];
        const actions = [{ type: "key", id: "keys",
            actions: [{ type: "keyDown", value }, { type: "keyUp", value }] }];
        await this.ask("WebDriver:PerformActions", { actions });
    }

    async narrow(width) {
        await this.ask("WebDriver:SetWindowRect", { width, height: 800 });
    }

    async dark() {
        await this.ask("Marionette:SetContext", { value: "chrome" });
        const script = "Services.prefs.setIntPref("
            + "'layout.css.prefers-color-scheme.content-override', 0);";
        await this.ask("WebDriver:ExecuteScript", { script, args: [] });
        await this.ask("Marionette:SetContext", { value: "content" });
    }
}
