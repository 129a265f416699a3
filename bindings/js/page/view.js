// The page: what a reader fills in, and the dialogue that it gives.
import { kind as moduleKind } from "../src/library.js";
import { toHex } from "../src/handle.js";
import { play, textOf } from "./play.js";
import { LINES, OF_CARD, readScript } from "./script.js";

const at = (name) => document.getElementById(name);
const LABELS = {
    app: "application", object: "object", locked: "locked object", select: "select", get: "get",
    put: "put", send: "send a command", plan: "plan", reset: "reset", table: "show the card",
};
const FIELDS = {
    aid: "identifier", tag: "tag", value: "value", command: "command", steps: "steps", cut: "cut",
};
const NEW = {
    app: ["A0000000031010"], object: ["50", "56495341"], locked: ["50", "56495341"],
    select: ["A0000000031010"], get: ["5F20"], put: ["5F20", "414E4E"], send: ["80CA5F2000"],
    plan: ["noa", "256"], reset: [], table: [],
};

let faults = new Map();
let playing = 0;

/** Makes an element. A name such as ariaLabel is that of an attribute. */
function made(name, properties = {}, ...children) {
    const it = document.createElement(name);
    for (const [key, value] of Object.entries(properties)) {
        if (key.startsWith("aria")) it.setAttribute(`aria-${key.slice(4).toLowerCase()}`, value);
        else it[key] = value;
    }
    it.append(...children);
    return it;
}

/** One line of the script, which a reader changes. */
function row(kind, given, kinds) {
    const choice = made("select", { ariaLabel: "what", className: "kind" }, ...kinds.map((it) =>
        made("option", { value: it, textContent: LABELS[it], selected: it === kind })));
    const inputs = made("span", { className: "fields" });
    const line = made("li", { className: "line" }, choice, inputs);
    const fill = (values) => inputs.replaceChildren(...LINES[choice.value].map(([name], place) =>
        made("input", {
            value: values[place], ariaLabel: `${FIELDS[name]}`, title: FIELDS[name],
            className: name, spellcheck: false, autocomplete: "off",
        })));
    const remove = made("button", { type: "button", textContent: "Remove", className: "remove" });
    remove.onclick = () => {
        const next = line.nextElementSibling ?? line.parentElement.nextElementSibling;
        line.remove();
        (next?.querySelector?.("select") ?? next)?.focus();
        changed();
    };
    choice.onchange = () => {
        fill(NEW[choice.value]);
        changed();
    };
    fill(given);
    line.append(remove);
    return line;
}

const listOf = (kind) => (OF_CARD.includes(kind) ? "objects" : "steps");
const kindsOf = (list) => Object.keys(LINES).filter((it) => listOf(it) === list);

function add(kind, given) {
    const list = listOf(kind);
    const it = row(kind, given, kindsOf(list));
    at(list).append(it);
    return it;
}

/** The script that the rows spell. */
function script() {
    const lines = [...document.querySelectorAll(at("is-own").checked ? "#steps .line" : ".line")];
    return lines.map((line) => [line.querySelector(".kind"), ...line.querySelectorAll("input")]
        .map((it) => it.value.trim() || "?").join(" ")).join("\n");
}

/** Fills the rows from a script. */
function show(text) {
    for (const list of ["objects", "steps"]) at(list).replaceChildren();
    for (const line of text.split("\n").filter((it) => it.trim() && !it.startsWith("#"))) {
        const [kind, ...given] = line.trim().split(/ +/);
        add(kind, given);
    }
}

/** Runs the reader's code. It is the body of a function that returns an application. */
function application(code) {
    let fault = null;
    const hear = (event) => {
        fault = event.message;
        event.preventDefault();
    };
    const element = made("script", { textContent: `ownCard = () => {${code}\n};` });
    delete globalThis.ownCard;
    addEventListener("error", hear);
    document.head.append(element);
    removeEventListener("error", hear);
    element.remove();
    if (fault !== null) throw new Error(fault);
    return globalThis.ownCard();
}

function partOf(it) {
    const digits = toHex(it.bytes).replace(/..(?!$)/g, "$& ");
    return made("span", { className: "part" }, made("code", { textContent: digits }),
        made("span", { className: "words", textContent: it.words }));
}

const WAYS = [["isLost", "Lose", { isLost: true }], ["change", "Damage", { change: 1 }]];

/** The buttons that lose or damage a transmission. */
function faultsOf({ number, fault }) {
    return WAYS.map(([name, words, made_]) => {
        const isOn = fault !== null && name in fault;
        const it = made("button", {
            type: "button", textContent: words, ariaPressed: String(isOn),
            ariaLabel: `${words} transmission ${number + 1}`,
        });
        it.dataset.fault = `${words} ${number}`;
        it.onclick = () => {
            // what is behind this one may be another dialogue now
            faults = new Map([...faults].filter(([other]) => other < number));
            if (!isOn) faults.set(number, made_);
            run(it.dataset.fault);
        };
        return it;
    });
}

function transmission(it) {
    const from = it.from === "card" ? "card to terminal" : "terminal to card";
    const said = [made("span", { className: "from", textContent: `${it.number + 1}, ${from}` })];
    const parts = made("span", { className: "parts" }, ...it.parts.map(partOf));
    const line = made("li", { className: it.from }, ...said, parts);
    if (it.fault !== null) {
        const words = it.arrived.length === 0 ? "Lost: nothing arrives."
            : `Damaged: ${toHex(it.arrived)} arrives.`;
        line.append(made("span", { className: "hit", textContent: words }));
    }
    line.append(made("span", { className: "faults" }, ...faultsOf(it)));
    return line;
}

const SHOWN = {
    bytes: transmission,
    answer: (it) => {
        const words = `Answer${textOf([it]).slice(1)}`;
        return made("li", { className: "answer", textContent: words });
    },
    busy: () => made("li", { className: "note", textContent: "A chain is pending: not begun." }),
    reset: () => made("li", { className: "note", textContent: "The card is reset." }),
    table: (it) => made("li", { className: "note" }, made("pre", { textContent: textOf([it]) })),
    note: (it) => made("li", { className: "note", textContent: it.words }),
    fault: (it) => made("li", { className: "fault", textContent: it.words }),
};

function summary(events) {
    const count = (kind) => events.filter((it) => it.kind === kind).length;
    return `${count("bytes")} transmissions, ${count("answer")} answers, ${count("fault")} faults`;
}

/** Plays what is filled in, and shows it. `focus` is the button that keeps the focus. */
async function run(focus = null) {
    const mine = ++playing;
    at("wrong").textContent = "";
    at("talk").setAttribute("aria-busy", "true");
    try {
        const protocol = at("t1").checked ? 1 : 0;
        const own = at("is-own").checked ? { application: application(at("own").value) } : {};
        const events = await play(readScript(script()), { protocol, faults, ...own });
        if (mine !== playing) return;
        at("talk").replaceChildren(...events.map((it) => SHOWN[it.kind](it)));
        at("said").textContent = summary(events);
        at("text").value = textOf(events);
    } catch (error) {
        if (mine !== playing) return;
        at("talk").replaceChildren();
        at("said").textContent = "";
        at("text").value = "";
        at("wrong").textContent = error.message;
    }
    at("talk").setAttribute("aria-busy", "false");
    if (focus) document.querySelector(`[data-fault="${focus}"]`)?.focus();
}

function changed() {
    faults = new Map();
    at("script").value = script();
    at("of-objects").hidden = at("is-own").checked;
    at("of-own").hidden = !at("is-own").checked;
    run();
}

function begin() {
    const examples = JSON.parse(at("examples").textContent);
    at("example").append(...Object.keys(examples).map((it) => made("option", { textContent: it })));
    at("example").onchange = () => {
        show(examples[at("example").value]);
        changed();
    };
    at("add-object").onclick = () => {
        add("object", NEW.object).querySelector("select").focus();
        changed();
    };
    at("add-step").onclick = () => {
        add("get", NEW.get).querySelector("select").focus();
        changed();
    };
    at("read").onclick = () => {
        try {
            readScript(at("script").value);
            show(at("script").value);
            changed();
        } catch (error) {
            at("wrong").textContent = error.message;
        }
    };
    at("mend").onclick = changed;
    for (const name of ["form", "own"]) at(name).addEventListener("change", changed);
    at("form").onsubmit = (event) => {
        event.preventDefault();
        changed();
    };
    at("module").textContent = moduleKind;
    show(Object.values(examples)[0]);
    changed();
}

begin();
