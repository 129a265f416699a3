// page.js chromium|firefox FOLDER: opens play.html in a browser, uses each control, and counts the
// requests at a local server. FOLDER gets copies of the page. It prints each test that fails, and
// last 'N passed, N failed'.
import assert from "node:assert/strict";
import { readFileSync, writeFileSync } from "node:fs";
import { createServer } from "node:http";
import { pathToFileURL } from "node:url";
import { Chromium, Firefox } from "./browsers.js";
import * as driven from "./driven.js";

const [, , name, folder] = process.argv;
const TOP = new URL("../../", import.meta.url);
const read = (path) => readFileSync(new URL(path, TOP), "utf8");
const ADDRESS = process.env.PLAY_HTML ? pathToFileURL(process.env.PLAY_HTML)
    : new URL("bindings/js/play.html", TOP);
const PAGE = readFileSync(ADDRESS, "utf8");
const POLICY = /<meta http-equiv="Content-Security-Policy"[^>]*>/;
const browser = name === "firefox" ? new Firefox() : new Chromium();
let [passed, failed] = [0, 0];

async function test(what, body) {
    try {
        await body();
        passed += 1;
    } catch (error) {
        failed += 1;
        console.log(`FAILED: ${name}: ${what}\n${error.message}`);
    }
}

/** Writes a copy of the page, and returns its address. */
function copy(title, text) {
    writeFileSync(`${folder}/${title}.html`, text);
    return pathToFileURL(`${folder}/${title}.html`).href;
}

const heard = [];
const server = createServer((request, response) => {
    heard.push(request.url);
    response.end();
}).listen(0, "127.0.0.1");
server.on("upgrade", (request, socket) => {
    heard.push(request.url);
    socket.destroy();
});
await new Promise((resolve) => { server.on("listening", resolve); });
const address = `http://127.0.0.1:${server.address().port}/`;

const shown = () => browser.run(driven.shown);
async function after(what, ...words) {
    await browser.run(driven[what], ...words);
    return shown();
}
const answers = (text) => text.split("\n").filter((it) => it.startsWith("= "));
const EXAMPLES = Object.entries(JSON.parse(
    /<script type="application\/json" id="examples">([^]*?)<\/script>/.exec(PAGE)[1]));
const example = (title) => after("fill", "#example", title);
// the fewest ways to ask a server that each browser has
const WAYS = 6;
const KEPT = "0|0||||A terminal and a smart card talk";

async function tests() {
    await test("it plays the first example at once", async () => {
        const { text, wrong, module, said, kept } = await shown();
        assert.equal(text, read("examples/read.out"));
        assert.equal(wrong, "");
        assert.match(module, /^wasm(32|64)$/);
        assert.match(said, /^\d+ transmissions, 4 answers, 0 faults$/);
        assert.equal(kept, KEPT);
    });
    await test("each example, at T=0 and T=1", async () => {
        assert.ok(EXAMPLES.length >= 5);
        for (const [title] of EXAMPLES) {
            const wanted = read(`examples/${title}.out`);
            assert.equal((await example(title)).text, wanted);
            const { text, lines } = await after("click", "#t1");
            assert.deepEqual(answers(text), answers(wanted));
            assert.ok(lines.some((it) => it.includes("S(IFS request)")));
            assert.equal((await after("click", "#t0")).text, wanted);
        }
    });
    await test("each byte has its words", async () => {
        const { lines } = await example("read");
        assert.match(lines[0], /^terminal: 1, terminal to card\s+00\s+CLA\s+A4\s+SELECT\s+04\s/);
        assert.match(lines[3], /^card: 4, card to terminal\s+61\s+SW1\s+0B\s+SW2: 11 bytes of /);
    });
    await test("a block is lost, and damaged, by a click", async () => {
        await example("read");
        await after("click", "#t1");
        const before = await shown();
        const lost = await after("click", "[data-fault='Lose 2']");
        assert.ok(lost.lines.some((it) => it.includes("Lost: nothing arrives.")));
        assert.ok(lost.lines.some((it) => it.includes("another error")));
        assert.deepEqual(answers(lost.text), answers(before.text));
        assert.equal(lost.focus, "Lose transmission 3");
        const damaged = await after("click", "[data-fault='Damage 2']");
        assert.ok(damaged.lines.some((it) => /Damaged: [0-9A-F]+ arrives\./.test(it)));
        assert.ok(damaged.lines.some((it) => it.includes("wrong check or parity")));
        assert.ok(!damaged.lines.some((it) => it.includes("Lost")));
        assert.equal((await after("click", "[data-fault='Damage 2']")).text, before.text);
        for (const at of [2, 3, 4, 5, 6]) await after("click", `[data-fault='Lose ${at}']`);
        const spent = await shown();
        assert.ok(spent.lines.some((it) => it.startsWith("fault: too many tries")));
        assert.ok(spent.lines.some((it) => it.includes("may have carried the command out")));
        assert.equal((await after("click", "#mend")).text, before.text);
        await after("click", "#t0");
    });
    await test("rows are added, changed and removed", async () => {
        await example("read");
        assert.match((await after("click", "#add-object")).script, /\nobject 50 56495341\n/);
        await after("fill", "#objects .line:last-of-type .kind", "locked");
        assert.match((await after("fill", "#objects .line:last-of-type .tag", "51")).script,
            /\nlocked 51 56495341\n/);
        await after("click", "#add-step");
        await after("fill", "#steps .line:last-of-type .kind", "put");
        const { text } = await after("fill", "#steps .line:last-of-type .tag", "51");
        assert.equal(answers(text).at(-1), "= 6982");
        assert.equal(answers((await after("click", "#steps .line:last-of-type .remove")).text)
            .length, 4);
    });
    await test("what is wrong is said, with its line", async () => {
        await example("read");
        const { wrong, lines, text } = await after("fill", "#objects .line .value", "4A4");
        assert.match(wrong, /^line \d+: bad hex$/);
        assert.deepEqual([lines, text], [[], ""]);
        assert.match((await after("fill", "#objects .line .value", "")).wrong, /bad hex/);
        const many = EXAMPLES[0][1].replace(/^object/m, "app A0000000031010\nobject");
        await after("fill", "#script", many);
        assert.equal((await after("click", "#read")).wrong, "aid twice");
    });
    await test("a script is taken", async () => {
        const text = read("examples/selecting/drops_a_chain.play");
        await after("fill", "#script", text);
        const found = await after("click", "#read");
        assert.equal(found.text, read("examples/selecting/drops_a_chain.out"));
        await after("fill", "#script", "get");
        assert.equal((await after("click", "#read")).wrong, "line 1: wrong number of words");
    });
    await test("a card of one's own", async () => {
        await after("fill", "#script", "send 8010000001\nsend 8010000001\nsend 8020000001\n");
        await after("click", "#read");
        const { text } = await after("click", "#is-own");
        assert.deepEqual(answers(text), ["= 9000 01", "= 9000 02", "= 6D00"]);
        assert.deepEqual(answers((await after("click", "#t1")).text), answers(text));
        await after("click", "#t0");
        for (const [code, wanted] of [["return {", /SyntaxError|Unexpected|expected/],
            ["return 5;", /an application has a function takesData/],
            ["throw new Error('my own');", /my own/]]) {
            const { wrong, lines } = await after("fill", "#own", code);
            assert.match(wrong, wanted);
            assert.deepEqual(lines, []);
        }
        await after("fill", "#own", `return { takesData: () => false, carryOut() {
            fetch("${address}own").catch(() => 0);
            new Image().src = "${address}own";
            return [0x9000];
        } };`);
        assert.deepEqual(answers((await after("click", "#play")).text).at(-1), "= 9000");
        await after("click", "#is-objects");
    });
    await test("the keyboard alone", async () => {
        await example("read");
        await browser.run(() => document.getElementById("t0").focus());
        await browser.press("ArrowRight");
        assert.ok((await shown()).lines.some((it) => it.includes("I-block")));
        await browser.run(() => document.querySelector("[data-fault='Lose 2']").focus());
        await browser.press("Enter");
        const lost = await shown();
        assert.ok(lost.lines.some((it) => it.includes("Lost: nothing arrives.")));
        await browser.press("Tab");
        assert.equal((await shown()).focus, "Damage transmission 3");
        await browser.press(" ");
        assert.ok((await shown()).lines.some((it) => it.includes("Damaged:")));
        await after("click", "#t0");
    });
    await test("a screen reader has a name for each control", async () => {
        await after("click", "#is-own");
        assert.deepEqual(await browser.run(driven.unnamed), []);
        await after("click", "#is-objects");
        assert.deepEqual(await browser.run(driven.unnamed), []);
    });
    await test("narrow and dark screens", async () => {
        await example("personalise");
        await after("click", "#t1");
        await after("click", "[data-fault='Damage 2']");
        assert.ok(await browser.run(driven.contrast) >= 4.5);
        await browser.narrow(name === "firefox" ? 500 : 320);
        assert.ok(await browser.run(driven.overflow) <= 0);
        assert.equal(await browser.run(driven.columns), 1);
        await browser.dark();
        assert.ok(await browser.run(driven.contrast) >= 4.5);
    });
    await test("no fault in the page's scripts", () => assert.deepEqual(browser.faults, []));
    await test("no request leaves the page, and none of this is kept", async () => {
        const refused = await browser.run(driven.askEverywhere, address, WAYS);
        assert.ok(refused.length >= WAYS, refused.join(" "));
        assert.deepEqual(heard, []);
        assert.equal((await shown()).kept, KEPT);
    });
    await test("the same page without its policy asks the server", async () => {
        await browser.go(copy("open", PAGE.replace(POLICY, "")));
        await browser.run(driven.askEverywhere, address, 0);
        for (let times = 0; times < 3000 && new Set(heard).size < WAYS; times++) {
            await new Promise((resolve) => { setTimeout(resolve, 20); });
        }
        assert.ok(new Set(heard).size >= WAYS, heard.join(" "));
    });
    await test("with the module for 32 bits", async () => {
        await browser.go(copy("narrow", PAGE.replace("WebAssembly.validate(WIDE)", "false")));
        const { module, text } = await shown();
        assert.deepEqual([module, text], ["wasm32", read("examples/read.out")]);
    });
}

try {
    await browser.open(ADDRESS.href);
    await tests();
} catch (error) {
    failed += 1;
    console.log(`FAILED: ${name}\n${error.stack}`);
}
await browser.close();
server.closeAllConnections();
server.close();
console.log(`${passed} passed, ${failed} failed`);
