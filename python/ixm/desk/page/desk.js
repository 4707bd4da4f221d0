// The desk's page (docs/desk.md). It judges nothing: each panel sends what is typed to the server, and that asks the
// program.
"use strict";

const PAUSE = 300; // milliseconds after the last key until the program is asked
const SAID = {
    yes: "permitted",
    no: "refused",
    full: "permitted, but the history is full",
    large: "permitted, but the state would be larger than the limit",
};
const SEARCHING = "Searching ..";
const STATES = [1000, 10000, 100000]; // how many a search goes through, one number after the other
// Each panel shows the answer to the question of its name (panels.py), in the section of its name. Some take given values
// from a field. What is of a command is hidden where the program hasn't it.
const PANELS = {
    rules: {show: showRules},
    lint: {show: showLint},
    drawing: {show: showDrawing},
    history: {show: showHistory},
    next: {show: showNext, field: "given", command: true},
    why: {show: showWhy, command: true},
    stuck: {show: (answer) => house.searched === house.rules.text && showSearch(answer), field: "moves", command: true},
    suite: {show: showSuite, idle: () => !house.cases.text.trim()},
};
const AFTER_RULES = ["lint", "history", "suite"];
const AFTER_HISTORY = ["next", "why", "drawing"];
const KINDS = ["rules", "cases"];
const FIELDS = ["given", "moves"];
// What is of one file and not of the next.
const SHOWN = ["looks", "found", "drawn", "bound", "refused", "actions", "state", "used", "counts", "wrong", "action-fault",
    "given-fault", "tried", "many", "menu", "refusal", "parts", "moves-fault", "searched", "gone"];
// Of each file: its texts, its history, those before it for undo and those undone, which of its actions is explained, the
// actions used before, and what stands in the fields.
const houses = [];
let house = null;
let commands = []; // of the program

const find = (name) => document.getElementById(name);

function element(tag, properties = {}, ...inner) {
    const made = Object.assign(document.createElement(tag), properties);
    made.append(...inner);
    return made;
}

// Asks the server. Throws an error with a sentence if there is no answer.
async function post(name, body) {
    const sent = {method: "POST", headers: {"Content-Type": "application/json"}, body: JSON.stringify(body)};
    const reply = await fetch(name, sent);
    const answer = await reply.json();
    if (!reply.ok) {
        throw new Error(answer.error);
    }
    return answer;
}

function say(sentence) {
    find("said").textContent = sentence;
}

// Runs what may fail, and says why if it does. Whether it failed.
async function fails(action) {
    try {
        await action();
        return false;
    } catch (error) {
        say(error instanceof TypeError ? "ixm-desk doesn't answer. Is it still running?" : error.message);
        return true;
    }
}

// Asks for a panel and shows the answer. While one answer is awaited the next question waits, and only the last counts.
async function ask(name) {
    const panel = PANELS[name];
    panel.again = panel.asking;
    if (panel.asking) {
        return;
    }
    panel.asking = true;
    const failed = await fails(async () => {
        const one = house;
        const answer = panel.idle?.() ? {} : await post(name, question(panel));
        const stopped = answer.stopped !== undefined && name !== "history"; // which the history's answer mends
        if (!panel.again && one === house && !stopped) {
            find(name).classList.toggle("old", Boolean(answer.fault));
            if (name === "rules" || !answer.fault) {
                panel.show(answer);
            }
        }
    });
    if (panel.failed && !failed) {
        say("");
    }
    panel.failed = failed;
    panel.asking = false;
    if (panel.again) {
        await ask(name);
    }
}

// What a panel is asked. Without `why` no action is explained.
function question(panel) {
    const given = panel.field ? find(panel.field).value.split(/\s+/).filter((word) => word) : [];
    const explained = commands.includes("why") ? explainedNumber() : house.actions.length;
    const texts = {rules: house.rules.text, cases: house.cases.text};
    const {actions, states = STATES[0]} = house;
    return {...texts, actions, explained, values: Number(find("values").value), given, states};
}

// Asks for these panels, but for those whose command the program hasn't.
function askAll(names) {
    names.filter((name) => !PANELS[name].command || commands.includes(name)).forEach(ask);
}

// The offset into a text of a line and a column, which count characters from 1.
function offset(text, line, column) {
    const lines = text.split("\n");
    const before = lines.slice(0, line - 1).reduce((sum, one) => sum + one.length + 1, 0);
    return before + [...(lines[line - 1] ?? "")].slice(0, column - 1).join("").length;
}

// A button that says a sentence about a place of a text, and leads there.
function leading(kind, fault) {
    const text = `${fault.line}:${fault.column}: ${fault.sentence}`;
    const made = element("button", {type: "button", className: "leading"}, text);
    made.addEventListener("click", () => {
        const at = offset(house[kind].text, fault.line, fault.column);
        find(`${kind}-text`).setSelectionRange(at, at);
        find(`${kind}-text`).focus({preventScroll: true});
        mark(kind, fault).scrollIntoView({block: "center"});
    });
    return made;
}

// Marks a place in the text that lies under the one that is typed.
function mark(kind, fault) {
    const text = house[kind].text;
    const at = offset(text, fault.line, fault.column);
    const word = /^[A-Za-z0-9_$]+|^[^]?/u.exec(text.slice(at))[0].trim();
    const made = element("mark", {}, word || " ");
    find(`${kind}-shown`).replaceChildren(text.slice(0, at), made, `${text.slice(at + word.length)}\n`);
    return made;
}

// Lists sentences about places of a text.
function showPlaces(name, kind, places) {
    find(name).replaceChildren(...places.map((one) => element("li", {}, leading(kind, one))));
}

// Shows a text under the place where it is typed, with the fault marked if it has one.
function showText(kind, fault) {
    find(`${kind}-shown`).replaceChildren(`${house[kind].text}\n`);
    if (fault) {
        mark(kind, fault);
    }
    find(`${kind}-text`).setAttribute("aria-invalid", String(Boolean(fault)));
    find(`${kind}-fault`).className = fault ? "fault" : "";
    find(`${kind}-fault`).replaceChildren(...(fault ? [leading(kind, fault)] : []));
}

function showRules(answer) {
    showText("rules", answer.fault);
    if (answer.fault) {
        for (const name of Object.keys(PANELS)) {
            find(name).classList.toggle("old", name !== "rules");
        }
    } else {
        give("expression-export", `${house.file}.expression`, answer.expression, "text/plain");
        showSearch({});
        askAll(AFTER_RULES);
    }
}

function showLint(answer) {
    const count = answer.found.length;
    find("looks").textContent = {0: "Nothing looks wrong", 1: "1 thing looks wrong"}[count] ?? `${count} things look wrong`;
    showPlaces("found", "rules", answer.found);
}

function showDrawing(answer) {
    drawIn("drawn", answer.shown);
    const bounded = answer.bound.replace(/^bound (.*)/, "at most $1 nodes");
    find("bound").textContent = bounded.replace(/^unbounded (\d+) .*/, "without a bound ($1)");
    showPlaces("refused", "rules", answer.refused);
    find("simple").hidden = !answer.simple.text;
    find("simple-text").textContent = answer.simple.text ?? "";
    drawIn("simple-drawn", answer.simple.svg);
    give("drawing-export", `${house.file}.svg`, answer.svg, "image/svg+xml");
}

function drawIn(name, svg) {
    const read = svg && new DOMParser().parseFromString(svg, "image/svg+xml").documentElement;
    find(name).replaceChildren(...(read ? [document.importNode(read, true)] : []));
}

function showHistory(answer) {
    if (answer.stopped !== undefined) {
        const [none] = house.actions.splice(answer.stopped, 1);
        find("action-fault").textContent = `${none} ${answer.sentence}`;
        find("action").value = none;
        house.before.pop();
        house.before = house.before.filter((actions) => !actions.includes(none));
        ask("history");
        return;
    }
    house.actions.forEach((action) => house.used.add(action));
    house.lines = answer.lines;
    house.listed = house.actions;
    showActions();
    find("actions").scrollTop = find("actions").scrollHeight;
    find("state").textContent = answer.state;
    showUsed();
    askAll(AFTER_HISTORY);
}

// The number of the action that is explained: the one that was chosen, or else the last.
function explainedNumber() {
    return house.explained ?? Math.max(house.actions.length - 1, 0);
}

// Lists the actions of which the program has said something. One that is refused can be chosen, so that it is explained.
function showActions() {
    find("actions").replaceChildren(...house.listed.map((action, number) => {
        const said = house.lines[number];
        const explains = said === "no" && commands.includes("why");
        const made = element(explains ? "button" : "span", {className: said === "yes" ? "yes" : "no"}, SAID[said]);
        if (explains) {
            Object.assign(made, {type: "button", title: "Why?", ariaLabel: `refused: why ${action}?`});
            made.setAttribute("aria-pressed", String(number === explainedNumber()));
            made.addEventListener("click", () => explain(number));
        }
        return element("li", {}, `${action} `, made);
    }));
}

function explain(number) {
    house.explained = number;
    showActions();
    find("actions").children[number].querySelector("button").focus();
    askAll(["why", "drawing"]);
}

function showWhy(answer) {
    find("refusal").textContent = answer.action ? `${answer.action} is refused` : "A refused action is explained here";
    showPlaces("parts", "rules", answer.parts);
}

// Shows what may come. The keyboard stays in the menu.
function showNext(answer) {
    const focused = ["menu", "naming"].some((name) => find(name).contains(document.activeElement));
    const was = document.activeElement.textContent;
    const actions = answer.actions ?? [];
    const first = answer.count > actions.length ? `, of which the first ${actions.length} are shown` : "";
    find("given-fault").textContent = answer.faulty ?? "";
    find("many").textContent = answer.faulty ? "" : `What may come of these values: ${answer.count}${first}.`;
    const left = answer.left ? ` without ${answer.left} earlier ones` : "";
    find("tried").textContent = answer.tried?.length ? `and those of the history${left}: ${answer.tried.join(" ")}` : "";
    find("menu").replaceChildren(...actions.map((action) => {
        const made = element("button", {type: "button"}, action);
        made.addEventListener("click", () => choose(action));
        return element("li", {}, made);
    }));
    find("naming").hidden = true;
    if (focused) {
        (offered(was) ?? find("menu").querySelector("button") ?? find("menu")).focus();
    }
}

// The menu's button of this action.
function offered(action) {
    return [...find("menu").querySelectorAll("button")].find((one) => one.textContent === action);
}

// Adds an action of the menu to the history. For new values it asks for names.
function choose(action) {
    const signs = [...new Set(action.match(/\$\d/g))];
    if (!signs.length) {
        goOn([...house.actions, action]);
        return;
    }
    house.chosen = action;
    find("names").replaceChildren(...signs.map((sign) => {
        const field = {name: sign, required: true, pattern: "[A-Za-z0-9_]{1,32}", autocomplete: "off", spellcheck: false};
        return element("label", {}, `${sign} of ${action} is `, element("input", field));
    }));
    find("naming").hidden = false;
    find("names").querySelector("input").focus();
}

function giveNames(event) {
    event.preventDefault();
    const names = Object.fromEntries(new FormData(find("naming")));
    unname();
    goOn([...house.actions, house.chosen.replace(/\$\d/g, (sign) => names[sign])]);
}

function unname() {
    find("naming").hidden = true;
    offered(house.chosen)?.focus();
}

async function search(event) {
    event.preventDefault();
    showSearch({sentence: SEARCHING});
    house.searched = house.rules.text;
    house.states = STATES[0];
    await ask("stuck");
    if (!PANELS.stuck.asking && find("searched").textContent.endsWith(SEARCHING)) {
        showSearch({}); // nothing came, or of other rules
    }
}

// Shows what a search found, or how far it came, and then it goes on through more states.
function showSearch(answer) {
    const next = answer.more && STATES.find((states) => states > house.states);
    find("moves-fault").textContent = answer.faulty ?? "";
    find("searched").textContent = next ? `More than ${house.states} states. ${SEARCHING}` : answer.sentence ?? "";
    house.found = answer.history ?? [];
    find("play").hidden = !house.found.length;
    showPlaces("gone", "rules", answer.gone ?? []);
    if (next) {
        house.states = next;
        ask("stuck");
    }
}

// Adds a button for each action used before that has none. The others stay, so that the keyboard stays at them.
function showUsed() {
    const shown = new Set([...find("used").children].map((one) => one.textContent));
    for (const action of [...house.used].filter((one) => !shown.has(one))) {
        const made = element("button", {type: "button"}, action);
        made.addEventListener("click", () => goOn([...house.actions, action]));
        find("used").append(element("li", {}, made));
    }
}

// Makes these the actions of the history.
function goOn(actions) {
    house.before.push(house.actions);
    house.after = [];
    turnTo(actions);
}

function turnTo(actions) {
    house.actions = actions;
    house.explained = null;
    find("action-fault").textContent = "";
    ask("history");
}

function undo() {
    step(house.before, house.after, "There is nothing to undo.");
}

function redo() {
    step(house.after, house.before, "There is nothing to do again.");
}

// Goes to the last of these histories, and keeps the one that it leaves with those.
function step(from, to, none) {
    if (from.length) {
        to.push(house.actions);
        turnTo(from.pop());
    } else {
        find("action-fault").textContent = none;
    }
}

function showSuite(answer) {
    showText("cases", answer.faulty);
    find("counts").textContent = answer.counts ?? (answer.faulty ? "" : "no cases");
    showPlaces("wrong", "cases", answer.wrong ?? []);
    answer.actions?.forEach((action) => house.used.add(action));
    showUsed();
}

// Adds the history as a case: its permitted actions, and if it is one that is refused also the last.
function keepCase(event) {
    event.preventDefault();
    const kind = find("kind").value;
    const last = house.actions.length - 1;
    const taken = house.actions.filter((_, at) => house.lines[at] === "yes" || (kind === "refused" && at === last));
    const lines = [`${kind} ${find("name").value.trim()}`, ...taken.map((action) => `    ${action}`)];
    const text = house.cases.text.trimEnd();
    typed("cases", `${text}${text && "\n\n"}${lines.join("\n")}\n`);
    find("name").value = "";
}

// Takes a text as typed, and asks for what it changes after a pause.
function typed(kind, text) {
    put(kind, text);
    clearTimeout(house[kind].pause);
    house[kind].pause = setTimeout(() => ask(kind === "rules" ? "rules" : "suite"), PAUSE);
}

// Puts a text in its place.
function put(kind, text) {
    house[kind].text = text;
    if (find(`${kind}-text`).value !== text) {
        find(`${kind}-text`).value = text;
    }
    showText(kind);
    showUnsaved();
    give(`${kind}-export`, kind === "rules" ? house.file : `${house.file}.cases`, text, "text/plain");
}

function isUnsaved(one) {
    return KINDS.some((kind) => one[kind].text !== one[kind].saved);
}

function showUnsaved() {
    find("unsaved").textContent = isUnsaved(house) ? "not saved" : "";
}

// Lets a link give a text as a file.
function give(name, file, text, type) {
    const link = find(name);
    URL.revokeObjectURL(link.href);
    link.href = URL.createObjectURL(new Blob([text], {type}));
    link.download = file;
}

async function save() {
    const one = house;
    if (one.saving) {
        return;
    }
    one.saving = true;
    try {
        await saveTexts(one);
    } finally {
        one.saving = false;
    }
}

async function saveTexts(one) {
    for (const kind of KINDS.filter((kind) => one[kind].text !== one[kind].saved)) {
        const {text, stamp} = one[kind];
        const answer = await post("save", {house: one.number, kind, text, stamp});
        if (answer.changed) {
            find("again").hidden = false;
            const sentence = `The file of the ${kind} has changed since it was read.`;
            throw new Error(`${sentence} It was left as it is. Export your text.`);
        }
        one[kind].saved = text;
        one[kind].stamp = answer.stamp;
    }
    say("Saved.");
    showUnsaved();
}

async function read(one) {
    for (const kind of KINDS) {
        const answer = await post("read", {house: one.number, kind});
        one[kind] = {text: answer.text, saved: answer.text, stamp: answer.stamp};
    }
}

async function readAgain() {
    if (!isUnsaved(house) || confirm("Put the texts of the files in place of yours?")) {
        await read(house);
        find("again").hidden = true;
        say("");
        show(house);
    }
}

function show(one) {
    house = one;
    document.title = `${one.file} - desk`;
    KINDS.forEach((kind) => put(kind, one[kind].text));
    FIELDS.forEach((name) => { find(name).value = one.fields[name] ?? ""; });
    SHOWN.forEach((name) => find(name).replaceChildren());
    ["simple", "again", "naming", "play"].forEach((name) => { find(name).hidden = true; });
    ask("rules");
}

async function begin() {
    const told = await post("begin", {});
    commands = told.commands;
    Object.keys(PANELS).forEach((name) => { find(name).hidden = PANELS[name].command && !commands.includes(name); });
    for (const [number, name] of told.houses.entries()) {
        const file = name.replace(/.*\//, "");
        const history = {actions: [], before: [], after: [], lines: [], explained: null};
        const one = {number, file, ...history, used: new Set(), fields: {}};
        await read(one);
        houses.push(one);
        find("house").append(element("option", {value: number}, name));
    }
    show(houses[0]);
}

function listen() {
    KINDS.forEach((kind) => find(`${kind}-text`).addEventListener("input", (event) => typed(kind, event.target.value)));
    find("house").addEventListener("change", (event) => show(houses[event.target.value]));
    find("values").addEventListener("input", () => ask("drawing"));
    find("undo").addEventListener("click", undo);
    find("redo").addEventListener("click", redo);
    find("begin").addEventListener("click", () => goOn([]));
    find("keep").addEventListener("submit", keepCase);
    find("naming").addEventListener("submit", giveNames);
    find("unnamed").addEventListener("click", unname);
    find("naming").addEventListener("keydown", (event) => event.key === "Escape" && unname());
    FIELDS.forEach((name) => find(name).addEventListener("input", (event) => { house.fields[name] = event.target.value; }));
    find("given").addEventListener("input", () => askAll(["next"]));
    find("search").addEventListener("submit", search);
    find("play").addEventListener("click", () => goOn(house.found));
    find("add").addEventListener("submit", (event) => {
        event.preventDefault();
        const action = find("action").value.trim();
        find("action").value = "";
        if (action) {
            goOn([...house.actions, action]);
        }
    });
    find("save").addEventListener("click", () => fails(save));
    find("again").addEventListener("click", () => fails(readAgain));
    document.addEventListener("keydown", pressed);
    addEventListener("beforeunload", (event) => houses.some(isUnsaved) && event.preventDefault());
}

// Ctrl+S saves. Ctrl+Z and Ctrl+Y are of the history, except in a field, which has its own.
function pressed(event) {
    const typing = event.target.matches("input, textarea");
    const name = {s: "save", z: event.shiftKey ? "redo" : "undo", y: "redo"}[event.key.toLowerCase()];
    if (!(event.ctrlKey || event.metaKey) || !name || (typing && name !== "save")) {
        return;
    }
    event.preventDefault();
    find(name).click();
}

listen();
fails(begin);
