
"use strict";

// The milliseconds between two requests, and in which a second click confirms a stop.
const PAUSE = 250, SURE = 3000;
// The width of a picture that the first column has no place for.
const WIDE = 800;
const TOKEN = new URLSearchParams(location.search).get("token") || "";
const ROLES = { root: "R", designated: "D", alternate: "A", backup: "B", disabled: "–" };
const MARKS = {
    forwarding: "m-2 0a2 2 0 1 0 4 0a2 2 0 1 0-4 0z",
    learning: "m-5 0a5 5 0 1 0 10 0a5 5 0 1 0-10 0z",
    discarding: "m-5-5h10v10h-10zm2 2l6 6m0-6l-6 6",
    disabled: "m-5-5l10 10m0-10l-10 10",
};
const byId = (id) => document.getElementById(id);
// The parts of the picture and of the tables that change, by name; and the number of the last change that is shown.
const parts = { links: {}, bridges: {}, ports: {} };
let picture = null, last = 0, isOver = false, sureUntil = 0;

// Sends a request, and returns the document that comes. Throws an error with what the server says.
async function ask(path, body) {
    const more = body === undefined ? {} : { method: "POST", body: JSON.stringify(body) };
    const answer = await fetch(path, { cache: "no-store", headers: { "X-Token": TOKEN }, ...more });
    const value = await answer.json();
    if (!answer.ok) {
        throw Object.assign(new Error(value.error), { isAnswer: true });
    }
    return value;
}

function notice(text) {
    byId("notice").textContent = text;
    byId("notice").hidden = !text;
}

// Returns a new element with these attributes and this text. Nothing is ever read as HTML.
function make(name, attributes = {}, text = "") {
    const isSvg = ["g", "path", "rect", "text", "title"].includes(name);
    const node = isSvg ? document.createElementNS("http://www.w3.org/2000/svg", name) : document.createElement(name);
    for (const [key, value] of Object.entries(attributes)) {
        node.setAttribute(key, value);
    }
    node.textContent = text;
    return node;
}

function add(parent, ...names) {
    const node = make(...names);
    parent.append(node);
    return node;
}

// Sets the text of a node if it differs: a selection in it stays.
function setText(node, text) {
    if (node.textContent !== String(text)) {
        node.textContent = text;
    }
}

const moved = ([x, y]) => `translate(${x} ${y})`;
const number = (value) => value.toLocaleString("en");

function drawBridge(svg, bridge) {
    const [width, height] = bridge.size;
    const group = add(svg, "g", { class: "bridge", transform: moved(bridge.at) });
    add(group, "title", {}, `bridge ${bridge.name}, address ${bridge.address}, priority ${bridge.priority}`);
    add(group, "rect", { width, height, rx: 6 });
    const name = add(group, "text", { x: width / 2, y: 29 }, bridge.name);
    const row = add(byId("bridges"), "tr");
    add(row, "td", {}, bridge.name);
    const cells = ["", "number", "number soft"].map((it) => add(row, "td", { class: it }));
    parts.bridges[bridge.name] = { group, name, cells };
}

function drawLink(svg, link) {
    const group = add(svg, "g", { class: "link", role: "button", tabindex: 0 });
    const title = add(group, "title");
    add(group, "path", { class: "hit", d: link.curve });
    add(group, "path", { class: "curve", d: link.curve });
    const label = add(group, "g", { class: "label", transform: moved(link.label.at) });
    add(label, "rect", { x: -link.label.width / 2, y: -7, width: link.label.width, height: 14 });
    add(label, "text", { y: 4 }, link.losses ? `${link.name} (loses)` : link.name);
    const row = add(byId("links"), "tr");
    add(row, "td", {}, link.name);
    const cells = link.ends.map(() => add(row, "td"));
    const button = add(add(row, "td", { class: "number" }), "button", { type: "button" }, "Disable");
    const part = { link, group, title, cells, button, ends: [], isDown: false };
    button.addEventListener("click", () => toggle(part));
    group.addEventListener("click", () => toggle(part));
    group.addEventListener("keydown", (event) => {
        if (event.key === "Enter" || event.key === " ") {
            event.preventDefault();
            toggle(part);
        }
    });
    parts.links[link.name] = part;
}

// Draws the marks and numbers of the ends of a link, above the boxes.
function drawEnds(svg, part) {
    part.ends = part.link.ends.map((end) => {
        const [x, y] = end.number;
        const mark = add(svg, "path", { class: "mark" });
        return { mark, at: `M${end.at[0]} ${end.at[1]}`, text: add(svg, "text", { class: "number", x, y }, end.port) };
    });
}

function drawPort(svg, port) {
    const group = add(svg, "g", { class: `service ${port.colour}`, transform: moved(port.at) });
    add(group, "title", {}, `port ${port.name}: ${port.bridge} port ${port.port}, service ${port.service}, VID ${port.vid}`);
    add(group, "path", { d: "M0-4h22" });
    add(group, "text", { x: 30 }, `${port.name} ${port.service}`);
    const row = add(byId("ports"), "tr");
    add(row, "td", {}, port.name);
    add(row, "td", { class: "whole" }, `${port.bridge} ${port.port}`);
    add(row, "td", {}, port.service);
    parts.ports[port.name] = ["number", "number", "number soft", "number soft"].map((it) => add(row, "td", { class: it }));
}

function drawService(svg, service) {
    const group = add(svg, "g", { class: `service ${service.colour}`, transform: moved(service.at) });
    add(group, "path", { d: "M0-4h22" });
    add(group, "text", { x: 30 }, `${service.name} ${service.vid}`);
}

function draw() {
    const svg = byId("picture"), { width, height } = picture;
    svg.setAttribute("viewBox", `0 0 ${width} ${height}`);
    // (a wide picture has the width of the page, and is scrolled where it would be too small to read)
    if (width > WIDE) {
        byId("numbers").after(byId("network"));
    }
    svg.style.width = `min(100%, ${1.5 * width}px)`;
    svg.style.minWidth = `${0.85 * width}px`;
    picture.links.forEach((it) => drawLink(svg, it));
    picture.bridges.forEach((it) => drawBridge(svg, it));
    picture.ports.forEach((it) => drawPort(svg, it));
    Object.values(parts.links).forEach((it) => drawEnds(svg, it));
    picture.services.forEach((it) => drawService(svg, it));
    byId("plan").textContent = picture.plan;
    document.title = `${picture.plan} – pbnet-view`;
}

// Returns the role and state of an end. A plan that gives the states has no role, but an end that is disabled.
function words(end) {
    const role = end.role || (end.disabled ? "disabled" : "");
    return end.state === null ? "not begun" : `${role} ${end.state}`.trim();
}

function showLink(part, ends) {
    part.isDown = ends.some((it) => it.disabled);
    const isActive = ends.every((it) => it.state === "forwarding");
    part.group.setAttribute("class", `link ${part.isDown ? "cut" : isActive ? "active" : "idle"}`);
    const texts = part.link.ends.map((end, it) => `${end.bridge} port ${end.port} ${words(ends[it])}`);
    const losses = part.link.losses ? `, ${part.link.losses}` : "";
    setText(part.title, `link ${part.link.name}: ${texts.join(", ")}${losses}`);
    part.group.setAttribute("aria-label", `${part.isDown ? "Enable" : "Disable"} ${part.title.textContent}`);
    setText(part.button, part.isDown ? "Enable" : "Disable");
    ends.forEach((end, it) => {
        const kind = end.disabled ? "disabled" : end.state, { mark, at, text } = part.ends[it];
        mark.setAttribute("class", `mark ${kind}`);
        mark.setAttribute("d", kind ? at + MARKS[kind] : "");
        setText(text, `${part.link.ends[it].port}${end.role ? ` ${ROLES[end.role]}` : ""}`);
        setText(part.cells[it], texts[it]);
        part.cells[it].className = end.disabled ? "bad" : end.state === "forwarding" ? "" : "warn";
    });
}

// Shows which bridges are roots: those that have roles and no Root port.
function showBridges(state) {
    const roles = {};
    for (const part of Object.values(parts.links)) {
        part.link.ends.forEach((end, it) => {
            const { role } = state.links[part.link.name][it];
            (roles[end.bridge] ||= []).push(role);
        });
    }
    for (const [name, { group, name: text, cells }] of Object.entries(parts.bridges)) {
        const found = roles[name] || [], count = state.bridges[name];
        const isRoot = found.some((it) => it && it !== "disabled") && !found.includes("root");
        const isCut = found.length > 0 && found.every((it) => it === "disabled");
        group.setAttribute("class", isRoot ? "bridge root" : "bridge");
        setText(text, isRoot ? `★ ${name}` : name);
        setText(cells[0], isRoot ? "root" : isCut ? "no link" : "");
        cells[0].className = isCut ? "bad" : "";
        setText(cells[1], count ? number(count.refused) : "");
        cells[1].className = count && count.refused ? "number some warn" : "number";
        setText(cells[2], count ? number(count.ticks) : "");
    }
}

function showPorts(ports) {
    for (const [name, cells] of Object.entries(parts.ports)) {
        const { entered, left, rates } = ports[name] || { entered: 0, left: 0, rates: [0, 0] };
        [...rates, entered, left].forEach((it, cell) => setText(cells[cell], number(it)));
        rates.forEach((it, cell) => (cells[cell].className = it ? "number some" : "number"));
    }
}

// Shows the lines of `drops`, whatever they are: a number at the end of a line is a count.
function showDrops(lines) {
    byId("drops").hidden = !lines;
    const rows = (lines || []).map((line) => line.match(/^(?:bridge )?(.*?)\s*(\d*)$/)).filter((it) => it[2] !== "0");
    const nodes = rows.map((found) => {
        const row = make("tr");
        add(row, "td", {}, found[1]);
        add(row, "td", { class: "number" }, found[2] && number(Number(found[2])));
        return row;
    });
    byId("reasons").replaceChildren(...(nodes.length ? nodes : [make("tr")]));
    if (!nodes.length) {
        add(byId("reasons").firstChild, "td", { class: "soft" }, "no frame was dropped");
    }
}

function showChanges(changes) {
    if (changes.length && !last) {
        byId("changes").replaceChildren();
    }
    for (const { number: count, time, kind, text } of changes) {
        const isWarning = kind === "message" && /^(warning|error|fault)/.test(text);
        const row = make("li", { class: isWarning ? "warn" : kind }), date = new Date(1000 * time);
        const clock = [date.getHours(), date.getMinutes(), date.getSeconds()].map((it) => String(it).padStart(2, "0"));
        add(row, "time", {}, `${clock.join(":")}.${Math.floor(date.getMilliseconds() / 100)}`);
        add(row, "span", {}, text);
        byId("changes").prepend(row);
        last = count;
    }
    while (byId("changes").children.length > 500) {
        byId("changes").lastChild.remove();
    }
}

function showStatus(state) {
    const seconds = Math.floor(state.seconds), status = byId("status");
    if (!state.result) {
        setText(status, `running, ${Math.floor(seconds / 60)}:${String(seconds % 60).padStart(2, "0")}`);
        status.className = "good";
        return;
    }
    finish(`${state.result.line}, exit status ${state.result.status}`, state.result.status !== 0);
    byId("report").textContent = state.result.report.join("\n") || "The run printed no report.";
    byId("result").hidden = false;
}

// Shows that the run, or the view of it, has ended.
function finish(text, isBad) {
    isOver = true;
    byId("status").textContent = text;
    byId("status").className = isBad ? "bad" : "";
    document.querySelectorAll("button").forEach((it) => (it.disabled = true));
}

function show(state) {
    Object.values(parts.links).forEach((it) => showLink(it, state.links[it.link.name]));
    showBridges(state);
    showPorts(state.ports);
    showDrops(state.drops);
    showChanges(state.changes);
    showStatus(state);
}

async function toggle(part) {
    if (isOver) {
        return;
    }
    part.group.classList.add("waiting");
    try {
        const { verdicts } = await ask("link", { link: part.link.name, up: part.isDown });
        notice(verdicts.every((it) => it === "ok") ? "" : `${part.link.name}: the run answered ${verdicts.join(", ")}`);
    } catch (error) {
        notice(`${part.link.name}: ${error.message}`);
    }
}

// Stops the run, if the button is clicked twice.
async function stop() {
    if (Date.now() > sureUntil) {
        sureUntil = Date.now() + SURE;
        byId("stop").textContent = "Stop the run?";
        byId("stop").className = "sure";
        setTimeout(calm, SURE);
        return;
    }
    calm();
    await ask("stop", {}).catch((error) => notice(`stop: ${error.message}`));
}

function calm() {
    sureUntil = 0;
    byId("stop").textContent = "Stop";
    byId("stop").className = "";
}

async function counts() {
    const found = await ask("counts").catch((error) => ({ lines: [error.message] }));
    byId("answer").textContent = found.lines.join("\n");
    byId("numbers").hidden = false;
}

const pause = () => new Promise((done) => setTimeout(done, PAUSE));

// Shows the state as it comes, until the run ends or nobody answers any more.
async function follow() {
    let failures = 0;
    while (!isOver) {
        try {
            show(await ask(`state?after=${last}`));
            failures = 0;
        } catch (error) {
            failures += 1;
            if (error.isAnswer || failures > 4) {
                finish(error.isAnswer ? error.message : "no connection: pbnet-view has ended", true);
            }
        }
        await pause();
    }
}

async function main() {
    byId("stop").addEventListener("click", stop);
    byId("counts").addEventListener("click", counts);
    try {
        picture = await ask("picture");
    } catch (error) {
        finish(error.message, true);
        return;
    }
    draw();
    await follow();
}

main();
