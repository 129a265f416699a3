// What a test does in the page: each function runs there alone, with words as arguments.

/** Waits until what is filled in has been played. Returns what the page then shows. */
export async function shown() {
    const at = (name) => document.getElementById(name);
    for (let times = 0; times < 5000; times++) {
        if (at("talk").getAttribute("aria-busy") === "false") break;
        await new Promise((resolve) => { setTimeout(resolve, 20); });
    }
    return {
        text: at("text").value, script: at("script").value, wrong: at("wrong").textContent,
        said: at("said").textContent, module: at("module").textContent,
        lines: [...at("talk").children].map((it) => `${it.className}: ${it.innerText}`),
        focus: document.activeElement.getAttribute("aria-label") ?? document.activeElement.id,
        kept: [localStorage.length, sessionStorage.length, location.hash, location.search,
            document.cookie, document.title].join("|"),
    };
}

/** Clicks what a selector names. */
export async function click(selector) {
    const it = document.querySelector(selector);
    it.focus();
    it.click();
}

/** Fills a field, as a reader does who then leaves it. */
export async function fill(selector, value) {
    const it = document.querySelector(selector);
    it.focus();
    it.value = value;
    for (const kind of ["input", "change"]) it.dispatchEvent(new Event(kind, { bubbles: true }));
}

/** What no label names, of all that a reader can use. */
export async function unnamed() {
    return [...document.querySelectorAll("input, select, textarea, button, summary")].filter((it) =>
        !it.getAttribute("aria-label") && !(it.labels?.length > 0) && !it.textContent.trim())
        .map((it) => it.outerHTML);
}

/** How far the page is wider than its window. */
export async function overflow() {
    return document.documentElement.scrollWidth - document.documentElement.clientWidth;
}

/** How many parts of the form stand side by side. */
export async function columns() {
    return getComputedStyle(document.querySelector("form")).gridTemplateColumns.split(" ").length;
}

/** The least contrast of a text in the page with what is behind it (WCAG 2.2). */
export async function contrast() {
    const numbers = (color) => color.match(/[\d.]+/g).map(Number);
    const light = (color) => numbers(color).slice(0, 3).map((it) => it / 255).map((it) =>
        (it <= 0.04045 ? it / 12.92 : ((it + 0.055) / 1.055) ** 2.4))
        .reduce((sum, it, at) => sum + it * [0.2126, 0.7152, 0.0722][at], 0);
    // the canvas, whose color a page has no other way to read
    const probe = document.createElement("div");
    probe.style.backgroundColor = "Canvas";
    document.body.append(probe);
    const behind = light(getComputedStyle(probe).backgroundColor);
    probe.remove();
    const of = (it) => {
        const [least, most] = [light(getComputedStyle(it).color), behind].sort((a, b) => a - b);
        return (most + 0.05) / (least + 0.05);
    };
    const all = document.querySelectorAll("h1, p, .from, .words, code, .hit, #wrong, .answer");
    return Math.min(...[...all].map(of));
}

/**
 * Asks a server in each way that a page has, from a script of the page itself. Returns what the
 * page's policy has refused, as soon as that are `wanted` ways.
 */
export async function askEverywhere(server, wanted) {
    const refused = new Set();
    document.addEventListener("securitypolicyviolation", (it) => refused.add(it.blockedURI));
    const code = `
        const at = (name) => ${JSON.stringify(server)} + name;
        const tried = (call) => { try { Promise.resolve(call()).catch(() => {}); } catch {} };
        const add = (name, more) => document.body.append(Object.assign(
            document.createElement(name), more));
        const work = (text) => new Worker(URL.createObjectURL(new Blob([text])));
        tried(() => fetch(at("fetch")));
        tried(() => navigator.sendBeacon(at("beacon"), "1"));
        tried(() => { const it = new XMLHttpRequest(); it.open("GET", at("xhr")); it.send(); });
        tried(() => add("img", { src: at("image"), alt: "" }));
        tried(() => add("script", { src: at("script") }));
        tried(() => add("iframe", { src: at("frame") }));
        tried(() => add("link", { rel: "stylesheet", href: at("style") }));
        tried(() => add("video", { src: at("video") }));
        tried(() => new EventSource(at("events")));
        tried(() => new WebSocket(at("socket").replace("http", "ws")));
        tried(() => work("fetch(" + JSON.stringify(at("worker")) + ")"));
        tried(() => import(at("import")));
        const form = document.createElement("form");
        const target = document.createElement("iframe");
        target.name = "target";
        Object.assign(form, { action: at("form"), target: "target" });
        document.body.append(target, form);
        tried(() => form.submit());`;
    const script = document.createElement("script");
    script.textContent = `{${code}}`;
    document.body.append(script);
    for (let times = 0; times < 3000 && refused.size < wanted; times++) {
        await new Promise((resolve) => { setTimeout(resolve, 20); });
    }
    return [...refused];
}
