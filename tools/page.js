"use strict";
// Draws a trace, `TRACE`, which tools/page put before this. Time goes down, an event a row.

const ROW = 22; // heights
const HEAD = 112;
const FOOT = 40;
const FIRST_LANE = 356; // behind the column of calls
const KEY_WIDTH = 20;
const KEY_END = 74;
const FEWEST_FOLDED = 4; // calls of setup, side by side, that are folded into one row
const FEWEST_FREE = 6; // events between the lives of two keys in one column
const MOST_BARS = 4; // of requests beside a lane
const MOST_CARDS = 300;
const MOST_KEYS = 600;
const MOST_LINE = 500; // characters of a trace's line that are shown
const MOST_CALL = 41;
const SVG = "http://www.w3.org/2000/svg";
const PACKET_COLOURS = { req: "--req", ack: "--ack", nak: "--nak", rnr: "--rnr", odd: "--odd" };
const STATE_COLOURS = {
    reset: "--line",
    init: "--dim",
    rtr: "--wins",
    rts: "--regs",
    sqd: "--rnr",
    error: "--bad",
    gone: "--line",
};
const ACCESS_LETTERS = { read: "R", write: "W", cas: "C", add: "A" };

const byId = (id) => document.getElementById(id);
const colour = (name) => `var(${name})`;
const numbers = (name) => name.split("/").map(Number);
const isBad = (status) => status !== "success" && status !== "flushed";

const shown = { queues: new Set(TRACE.queues), pattern: null, matchesOnly: false, unfolded: new Set() };
let pinned = null; // the stamp of the event whose lines stay
let followed = null; // the request or the key that is followed alone
let rows = []; // what stands in each row: the stamp, and how many calls of setup are folded into it
let rowOf = []; // of each stamp its row, or half a row behind the last one that is shown
let places = null; // where lanes and adapters stand, and how wide all is

// ---- elements

function element(parent, name, attributes, content) {
    const made = document.createElementNS(SVG, name);
    for (const [key, value] of Object.entries(attributes)) {
        if (value !== null && value !== undefined) made.setAttribute(key, value);
    }
    if (content !== undefined) made.textContent = content;
    parent.appendChild(made);
    return made;
}

const text = (parent, x, y, content, more = {}) => element(parent, "text", { x, y, ...more }, content);
const group = (parent, classes, isOn) => element(parent, "g", { class: classes + (isOn ? "" : " off") });
const anchored = (direction) => ({ "text-anchor": direction > 0 ? "start" : "end" });

// ---- rows: an event each; calls of setup side by side are folded into one

const matches = (event) => !shown.pattern || shown.pattern.test(event.lines.join("\n"));

function isWanted(event) {
    const isInLanes = !event.queues.length || event.queues.some((queue) => shown.queues.has(queue));
    return isInLanes && (!shown.matchesOnly || matches(event));
}

function endOfSetup(from) {
    let to = from;
    const folds = !(shown.matchesOnly && shown.pattern);
    while (to < TRACE.events.length && TRACE.events[to].setup && folds) to++;
    return to;
}

function makeRows() {
    rows = [];
    rowOf = new Array(TRACE.events.length).fill(null);
    let stamp = 0;
    while (stamp < TRACE.events.length) {
        const end = endOfSetup(stamp);
        const isFolded = end - stamp >= FEWEST_FOLDED && !shown.unfolded.has(stamp);
        if (isFolded) {
            rowOf.fill(rows.length, stamp, end);
            rows.push({ stamp, folded: end - stamp });
        }
        for (let at = stamp; at < Math.max(end, stamp + 1) && !isFolded; at++) {
            if (isWanted(TRACE.events[at])) {
                rowOf[at] = rows.length;
                rows.push({ stamp: at, folded: 0 });
            }
        }
        stamp = Math.max(end, stamp + 1);
    }
    let last = -1;
    rowOf.forEach((row, at) => {
        if (row === null) rowOf[at] = last + 0.5;
        else last = row;
    });
}

const heightOfRow = (row) => (row + 0.5) * ROW;
const heightOf = (stamp) => heightOfRow(rowOf[Math.min(stamp, rowOf.length - 1)]);
const wholeHeight = () => rows.length * ROW + FOOT;

// ---- places: of two adapters one mirrors the other, so that packets cross the middle; more stand side by side

// Keys that were named and never granted are keys as well, of no length.
function keyOfAccess(access, unknown) {
    if (access.grant !== null) return TRACE.grants[access.grant];
    const same = TRACE.grants.filter((grant) => grant.adapter === access.adapter && grant.key === access.key);
    const begun = same.filter((grant) => grant.granted <= access.stamp);
    if (same.length) return begun.length ? begun[begun.length - 1] : same[0];
    const name = `${access.adapter} ${access.key}`;
    if (!unknown.has(name)) {
        unknown.set(name, {
            adapter: access.adapter,
            key: access.key,
            object: "never granted",
            granted: access.stamp,
            last: access.stamp,
            revoked: null,
            isUnknown: true,
        });
    }
    return unknown.get(name);
}

// Each access gets its key, and each key the last event that has to do with it. All keys are given back.
function relateKeys() {
    const unknown = new Map();
    TRACE.grants.forEach((grant) => (grant.last = grant.revoked ?? TRACE.events.length));
    TRACE.accesses.forEach((access) => {
        access.of = keyOfAccess(access, unknown);
        access.of.last = Math.max(access.of.last, access.stamp + 1);
    });
    return [...TRACE.grants, ...unknown.values()];
}

const KEYS = relateKeys();

// Keys of an adapter in as few columns as their lives allow.
function columnsOf(adapter) {
    const ends = [];
    const keys = KEYS.filter((key) => Number(key.adapter) === adapter);
    keys.sort((one, other) => one.granted - other.granted);
    keys.forEach((key) => {
        let column = ends.findIndex((end) => end <= key.granted - FEWEST_FREE);
        if (column < 0) column = ends.push(0) - 1;
        ends[column] = key.last;
        key.column = column;
    });
    return { keys, count: Math.max(1, ends.length) };
}

function adaptersOf() {
    const named = TRACE.queues.map((queue) => numbers(queue)[0]);
    const owners = KEYS.map((key) => Number(key.adapter));
    return [...new Set([...named, ...owners])].sort((one, other) => one - other);
}

function placeAll(fit) {
    const lane = Math.max(46, 70 * fit);
    const note = Math.max(96, 132 * fit);
    const gap = 250 * fit;
    const adapters = adaptersOf();
    const lanes = new Map();
    const boxes = [];
    let x = FIRST_LANE;
    adapters.forEach((adapter, at) => {
        const queues = TRACE.queues.filter((queue) => numbers(queue)[0] === adapter && shown.queues.has(queue));
        const isMirrored = adapters.length === 2 && at === 0;
        const columns = columnsOf(adapter);
        const keysWidth = columns.count * KEY_WIDTH;
        const lanesWidth = Math.max(1, queues.length) * lane;
        const begin = x;
        const keysBegin = isMirrored ? x + KEY_END : x + 10 + lanesWidth + note - 30;
        const lanesBegin = isMirrored ? keysBegin + keysWidth + note : x + 10;
        x = isMirrored ? lanesBegin + lanesWidth : keysBegin + keysWidth + KEY_END;
        const outward = isMirrored ? -1 : 1; // from the lanes to the keys
        queues.forEach((queue, place) => lanes.set(queue, { x: lanesBegin + lane / 2 + place * lane, outward }));
        columns.keys.forEach((key) => {
            const within = (key.column + 0.5) * KEY_WIDTH;
            key.x = isMirrored ? keysBegin + keysWidth - within : keysBegin + within;
            key.outward = outward;
        });
        boxes.push({ adapter, x: begin, width: x - begin, middle: lanesBegin + lanesWidth / 2 });
        x += at + 1 < adapters.length ? (isMirrored ? gap - 60 : 90) : 20;
    });
    places = { lanes, boxes, width: x };
}

// As wide as the window, within what can be read.
function makePlaces() {
    const room = byId("pic").clientWidth - 2;
    placeAll(1);
    const wide = places.width;
    if (wide <= room && wide >= room - 60) return;
    placeAll(0.5);
    const fit = 0.5 + ((room - places.width) / (wide - places.width)) * 0.5;
    placeAll(Math.max(0.5, Math.min(1.6, fit)) || 0.5);
}

// ---- following: what belongs to a request or to a key

const stampsOf = (packet) => [packet.sent, ...packet.arrived];

function packetsOfRequest(request) {
    const end = request.done ?? Infinity;
    const meanwhile = TRACE.packets.filter((packet) => packet.sent >= request.posted && packet.sent <= end);
    const own = meanwhile.filter((packet) => packet.from === request.queue && packet.place === String(request.place));
    const psns = new Set(own.map((packet) => packet.psn));
    const peer = own.length ? own[own.length - 1].to : null;
    const back = meanwhile.filter((packet) => packet.from === peer && packet.to === request.queue);
    const answers = back.filter((packet) => packet.kind !== "req" && psns.has(packet.psn));
    return new Set([...own, ...answers]);
}

function followRequest(request) {
    const isFollowed = followed && followed.request === request;
    if (!request.packets) {
        request.packets = packetsOfRequest(request);
        const stamps = [...request.packets].flatMap(stampsOf);
        request.stamps = new Set([request.posted, request.done, ...stamps]);
    }
    followed = isFollowed ? null : { request, stamps: request.stamps };
    draw();
}

function followKey(key) {
    const isFollowed = followed && followed.key === key;
    const uses = TRACE.accesses.filter((access) => access.of === key).map((access) => access.stamp);
    followed = isFollowed ? null : { key, stamps: new Set([key.granted, key.revoked, ...uses]) };
    draw();
}

const followsEvent = (stamp) => !followed || followed.stamps.has(stamp);

function followsPacket(packet) {
    if (!followed) return true;
    if (followed.key) return packet.arrived.some((stamp) => followed.stamps.has(stamp));
    return followed.request.packets.has(packet);
}

function followsAccess(access) {
    if (!followed) return true;
    return followed.key ? access.of === followed.key : followed.stamps.has(access.stamp);
}

const followsKey = (key) => !followed || followed.key === key;
const followsRequest = (request) => !followed || followed.request === request;
const followsNote = (stamp) => !followed || (!followed.key && followed.stamps.has(stamp));

// ---- tips: the trace's own lines of what is pointed at

function showTip(stamps, reason) {
    const tip = byId("tip");
    const known = [...new Set(stamps)].filter((stamp) => stamp !== null && stamp !== undefined);
    const cut = (line) => (line.length > MOST_LINE ? `${line.slice(0, MOST_LINE)} …` : line);
    tip.style.display = "block";
    tip.textContent = known.map((stamp) => TRACE.events[stamp].lines.map(cut).join("\n")).join("\n");
    if (reason) {
        const why = document.createElement("b");
        why.textContent = `${reason}\n`;
        tip.prepend(why);
    }
}

function hideTip() {
    if (pinned === null) byId("tip").style.display = "none";
    else showTip([pinned]);
}

function withTip(made, stamps, reason) {
    made.addEventListener("mouseenter", () => showTip(stamps, reason));
    made.addEventListener("mouseleave", hideTip);
    return made;
}

// ---- names above the lanes

function drawTop() {
    const top = byId("top");
    top.textContent = "";
    top.setAttribute("width", places.width);
    top.setAttribute("height", HEAD);
    text(top, 12, HEAD - 8, "event", { class: "dim" });
    text(top, 56, HEAD - 8, "call and answer", { class: "dim" });
    places.boxes.forEach((box) => {
        element(top, "rect", { x: box.x, y: 4, width: box.width, height: HEAD, rx: 7, fill: colour("--band") });
        text(top, box.middle, 22, `adapter ${box.adapter}`, { class: "adapter", "text-anchor": "middle" });
    });
    places.lanes.forEach((lane, queue) => {
        text(top, lane.x, HEAD - 8, queue, { class: "queue", "text-anchor": "middle" });
    });
    const first = new Map(); // of each column
    KEYS.forEach((key) => {
        if (!first.has(key.x) || first.get(key.x).granted > key.granted) first.set(key.x, key);
    });
    first.forEach((key, x) => {
        const name = `${key.key.replace(/^0x0*/, "0x")} ${key.isUnknown ? "never" : key.object}`;
        text(top, x + 4, HEAD - 6, name, { class: "dim", transform: `rotate(-90 ${x + 4} ${HEAD - 6})` });
    });
}

// ---- the rows in sight

// Which rows and which events are in sight.
function sight() {
    const pic = byId("pic");
    const from = Math.max(0, Math.floor(pic.scrollTop / ROW) - 8);
    const to = Math.min(rows.length, Math.ceil((pic.scrollTop + pic.clientHeight) / ROW) + 4);
    const last = rows[to - 1];
    return {
        from,
        to,
        first: rows[from] ? rows[from].stamp : 0,
        last: last ? last.stamp + Math.max(0, last.folded - 1) : 0,
        top: from * ROW,
        bottom: to * ROW + 14,
    };
}

function draw() {
    const svg = byId("svg");
    const seen = sight();
    svg.textContent = "";
    svg.setAttribute("width", places.width);
    svg.setAttribute("height", wholeHeight());
    drawArrowheads(svg);
    places.boxes.forEach((box) => {
        const height = seen.bottom - seen.top;
        element(svg, "rect", { x: box.x, y: seen.top, width: box.width, height, fill: colour("--band") });
    });
    for (let row = seen.from; row < seen.to; row++) drawRow(svg, row);
    const sees = (from, to) => from <= seen.last && to >= seen.first;
    places.lanes.forEach((lane, queue) => drawLane(svg, lane, queue, seen, sees));
    drawRequests(svg, sees);
    KEYS.filter((key) => sees(key.granted, key.last)).forEach((key) => drawKey(svg, key, seen));
    const isSeen = (packet) => sees(packet.sent, Math.max(...stampsOf(packet)));
    TRACE.packets.filter(isSeen).forEach((packet) => drawPacket(svg, packet));
    TRACE.accesses.filter((access) => sees(access.stamp, access.stamp)).forEach((access) => drawAccess(svg, access));
    drawNotes(svg, sees);
    for (let row = seen.from; row < seen.to; row++) drawInjected(svg, rows[row]);
    if (seen.to === rows.length) text(svg, 12, rows.length * ROW + 18, `end ${TRACE.events.length}`, { class: "dim" });
    drawMap();
}

function drawArrowheads(svg) {
    const defs = element(svg, "defs", {});
    for (const [kind, name] of Object.entries(PACKET_COLOURS)) {
        const marker = element(defs, "marker", {
            id: `arrow-${kind}`,
            viewBox: "0 0 8 8",
            refX: 8,
            refY: 4,
            markerWidth: 7,
            markerHeight: 7,
            orient: "auto-start-reverse",
        });
        element(marker, "path", { d: "M0,.5L8,4L0,7.5z", fill: colour(name) });
    }
}

function drawRow(svg, row) {
    const { stamp, folded } = rows[row];
    const event = TRACE.events[stamp];
    const y = heightOfRow(row);
    const isOn = folded || (matches(event) && followsEvent(stamp));
    const made = group(svg, `event${stamp === pinned ? " pinned" : ""}`, isOn);
    element(made, "rect", { class: "row hit", x: 0, y: y - ROW / 2, width: places.width, height: ROW });
    if (folded) {
        const said = `▸ @${stamp} to @${stamp + folded - 1}: ${folded} calls of setup`;
        text(made, 12, y + 4, said, { class: "dim hit" });
        made.onclick = () => {
            shown.unfolded.add(stamp);
            refresh();
        };
        return;
    }
    text(made, 12, y + 4, `@${stamp}`, { class: "dim" });
    if (event.by) drawCall(made, event, y);
    made.onclick = () => select(stamp);
    withTip(made, [stamp, event.packet === null ? null : TRACE.packets[event.packet].sent]);
}

function drawCall(made, event, y) {
    const fill = `hsl(${(Number(event.by.slice(1)) * 67) % 360} 45% 55%)`;
    element(made, "rect", { x: 54, y: y - 7, width: 22, height: 14, rx: 4, fill });
    text(made, 65, y + 4, event.by, { class: "consumer", "text-anchor": "middle" });
    const isPlain = event.answer === "ok" || /^posted -|^polled/.test(event.answer);
    const call = `${event.call}${isPlain ? "" : ` → ${event.answer}`}`.replace(/0x0+(?=[0-9a-f])/g, "0x");
    const said = call.length > MOST_CALL ? `${call.slice(0, MOST_CALL - 1)}…` : call;
    text(made, 81, y + 4, said, { class: event.refused ? "bad" : null });
}

// A queue pair's life, in the colour of its state.
function drawLane(svg, lane, queue, seen, sees) {
    const states = TRACE.states.filter(([, of]) => of === queue);
    if (!states.length) states.push([0, queue, "rts"]);
    states.forEach(([from, , state], at) => {
        const to = at + 1 < states.length ? states[at + 1][0] : TRACE.events.length;
        if (state === "gone" || !sees(from, to)) return;
        const isIdle = state === "reset" || state === "init";
        const line = element(svg, "line", {
            x1: lane.x,
            x2: lane.x,
            y1: Math.max(heightOf(from), seen.top - 9),
            y2: Math.min(to < TRACE.events.length ? heightOf(to) : wholeHeight() - 26, seen.bottom),
            stroke: colour(STATE_COLOURS[state]),
            "stroke-width": isIdle ? 2 : 4,
        });
        element(line, "title", {}, `${queue} is in ${state}`);
    });
}

// A thin bar beside the lane from a request's post to its completion; those that overlap stand side by side.
function drawRequests(svg, sees) {
    const ends = new Map();
    TRACE.requests.forEach((request) => {
        const lane = places.lanes.get(request.queue);
        if (!lane) return;
        if (!ends.has(request.queue)) ends.set(request.queue, []);
        const bars = ends.get(request.queue);
        const end = request.done ?? request.posted + 1;
        let bar = bars.findIndex((busy) => busy < request.posted);
        if (bar < 0) bar = bars.push(0) - 1;
        bars[bar] = request.signalled || request.done !== null ? end : request.posted;
        if (bar >= MOST_BARS || !sees(request.posted, end)) return;
        const made = withTip(group(svg, "hit", followsRequest(request)), [request.posted, request.done]);
        const failed = request.status && request.status !== "success";
        const y = heightOf(request.posted);
        element(made, "rect", {
            x: lane.x + lane.outward * (9 + 7 * bar) - 2.5,
            y,
            width: 5,
            height: Math.max(4, heightOf(end) - y),
            rx: 2.5,
            fill: colour(failed ? "--bad" : request.status ? "--regs" : "--dim"),
            "fill-opacity": 0.75,
        });
        made.onclick = () => followRequest(request);
    });
}

// A key's life: a bar, with a red end where it was revoked, and a thin line on to where it was still named.
function drawKey(svg, key, seen) {
    const made = group(svg, "hit", followsKey(key));
    const dashed = { x1: key.x, x2: key.x, "stroke-dasharray": "2 4" };
    made.onclick = () => followKey(key);
    if (key.isUnknown) {
        element(made, "line", { ...dashed, y1: seen.top, y2: seen.bottom, stroke: colour("--line") });
        return;
    }
    const begin = heightOf(key.granted);
    const end = key.revoked === null ? wholeHeight() - 26 : heightOf(key.revoked);
    const isWindow = key.object === "window";
    element(made, "rect", {
        x: key.x - 6,
        y: begin,
        width: 12,
        height: Math.max(3, end - begin),
        rx: 3,
        fill: colour(isWindow ? "--win" : "--reg"),
        stroke: colour(isWindow ? "--wins" : "--regs"),
    });
    if (key.revoked !== null) {
        const red = { stroke: colour("--bad") };
        element(made, "line", { x1: key.x - 10, x2: key.x + 10, y1: end, y2: end, "stroke-width": 2.5, ...red });
        text(made, key.x + key.outward * 13, end + 4, "ends", { class: "halo bad small", ...anchored(key.outward) });
        element(made, "line", { ...dashed, y1: end, y2: Math.min(seen.bottom, heightOf(key.last)), ...red });
    }
    const covers = `rights ${key.rights}, ${key.address}+${key.length}${key.how ? `; ended by ${key.how}` : ""}`;
    withTip(made, [key.granted, key.revoked], `${key.object} ${key.key} of ${key.domain} for ${key.queues}, ${covers}`);
}

// A packet: an arrow to each arrival; one that is lost or under way ends in the gap.
function drawPacket(svg, packet) {
    const source = places.lanes.get(packet.from);
    if (!source) return;
    const target = places.lanes.get(packet.to) || { x: source.x + 90 };
    const isFound = stampsOf(packet).some((stamp) => matches(TRACE.events[stamp]));
    const made = withTip(group(svg, "hit", followsPacket(packet) && isFound), stampsOf(packet));
    const own = PACKET_COLOURS[packet.kind];
    const direction = Math.sign(target.x - source.x) || 1;
    const y = heightOf(packet.sent);
    const isHeld = packet.lot.startsWith("hold");
    const line = (x, to, name, dashes, hasHead) => {
        const straight = `M${source.x + direction * 3},${y}L${x - direction * 3},${to}`;
        const bend = source.x + 60;
        element(made, "path", {
            d: source.x === target.x ? `M${source.x},${y}C${bend},${y} ${bend},${to} ${x},${to}` : straight,
            fill: "none",
            stroke: colour(name),
            "stroke-width": 1.8,
            "stroke-dasharray": dashes,
            "marker-end": hasHead ? `url(#arrow-${packet.kind})` : null,
        });
    };
    if (packet.lost || !packet.arrived.length) {
        const x = source.x + (target.x - source.x) * 0.62;
        const said = packet.lost ? (packet.index === "-" ? "✗ no path" : "✗ lost") : "… under way";
        line(x, y + 8, packet.lost ? "--lost" : own, "5 4", false);
        text(made, x + direction * 9, y + 13, said, { class: "halo lost", ...anchored(direction) });
    }
    packet.arrived.forEach((stamp, at) => {
        const name = at ? "--odd" : isHeld ? "--hold" : own;
        line(target.x, heightOf(stamp), name, at ? "2 4" : isHeld ? "7 4" : null, true);
    });
    const isAgain = packet.again !== null && packet.kind === "req";
    const name = [packet.name, packet.psn ?? "", isAgain ? "again" : "", isHeld ? "held" : ""];
    const style = `fill:${colour(isHeld ? "--hold" : own)}`;
    const said = name.filter((word) => word !== "").join(" ");
    text(made, source.x + direction * 12, y - 4, said, { class: "halo packet", style, ...anchored(direction) });
    const request = requestOf(packet);
    if (request) made.onclick = () => followRequest(request);
}

const requestOf = (packet) =>
    TRACE.requests.find(
        (request) =>
            request.queue === packet.from &&
            String(request.place) === packet.place &&
            request.posted <= packet.sent &&
            (request.done === null || request.done >= packet.sent),
    );

// An access, on the bar of its key: a disc for one from afar, a square for one of a queue pair's own list.
function drawAccess(svg, access) {
    const lane = places.lanes.get(access.queue);
    if (!lane) return;
    const y = heightOf(access.stamp);
    const key = access.of;
    const own = colour(access.denied ? "--bad" : "--ok");
    const made = withTip(group(svg, "", followsAccess(access)), [access.stamp], access.why);
    const isFilled = access.side === "remote" || access.denied;
    element(made, "line", {
        x1: lane.x,
        x2: key.x,
        y1: y,
        y2: y,
        stroke: own,
        "stroke-width": access.denied ? 2 : 1,
        "stroke-dasharray": access.denied ? null : "1 3",
    });
    if (access.side === "remote") element(made, "circle", { cx: key.x, cy: y, r: 7.5, fill: own });
    else {
        const fill = isFilled ? own : colour("--bg");
        element(made, "rect", { x: key.x - 6, y: y - 6, width: 12, height: 12, rx: 2, fill, stroke: own });
    }
    const letter = access.denied ? "✗" : ACCESS_LETTERS[access.kind];
    const style = `fill:${isFilled ? "#fff" : own}`;
    text(made, key.x, y + 3.5, letter, { class: "letter", style, "text-anchor": "middle" });
    if (access.denied) {
        text(made, key.x + key.outward * 12, y + 4, access.denied, { class: "halo bad", ...anchored(key.outward) });
    }
}

// ---- notes beside a lane: completions, drops, duplicates, timers, wakes

function drawNote(svg, note, sees) {
    const lane = places.lanes.get(note.queue);
    if (!lane || !sees(note.stamp, note.stamp)) return;
    const width = note.said.length * 6.35 + 12;
    const isRight = lane.outward > 0 !== Boolean(note.isInward);
    const x = isRight ? lane.x + 16 : lane.x - 16 - width;
    const y = heightOf(note.stamp);
    const made = withTip(group(svg, "", followsNote(note.stamp)), [note.stamp, note.other], note.why);
    element(made, "rect", { x, y: y - 8, width, height: 16, rx: 8, fill: colour("--bg"), stroke: colour(note.colour) });
    text(made, x + 6, y + 3.5, note.said, { class: "packet", style: `fill:${colour(note.colour)}` });
}

// The completions of each event and queue pair, of which one pill tells.
const COMPLETIONS = new Map();
TRACE.done.forEach((done) => {
    const at = `${done.stamp} ${done.queue}`;
    COMPLETIONS.set(at, [...(COMPLETIONS.get(at) || []), done]);
});

function noteOfCompletions(all) {
    const told = all.find((done) => isBad(done.status)) || all[0];
    const others = all.filter((done) => done !== told);
    const isFine = told.status === "success";
    let said = `${isFine ? "✓" : "✗"} ${told.op} ${told.id}${isFine ? "" : ` ${told.status}`}`;
    if (others.length) {
        const isOneStatus = others.every((done) => done.status === others[0].status) && others[0].status !== "success";
        said += ` +${others.length}${isOneStatus ? ` ${others[0].status}` : ""}`;
    }
    return { queue: told.queue, stamp: told.stamp, said, colour: isFine ? "--ok" : "--bad", why: told.why };
}

function drawNotes(svg, sees) {
    COMPLETIONS.forEach((all) => {
        const note = noteOfCompletions(all);
        const lane = places.lanes.get(note.queue);
        if (!lane || !sees(note.stamp, note.stamp)) return;
        const dot = { cx: lane.x, cy: heightOf(note.stamp), r: 5, fill: colour(note.colour), stroke: colour("--bg") };
        element(svg, "circle", { ...dot, class: followsNote(note.stamp) ? null : "off" });
        drawNote(svg, note, sees);
    });
    TRACE.drops.forEach((drop) => {
        drawNote(svg, { ...drop, said: `⊘ ${drop.why}`, colour: "--rnr", why: "the packet was dropped" }, sees);
    });
    TRACE.twice.forEach((twice) => {
        const why = `a duplicate: what it asks for was done at @${twice.first}, and is not done again`;
        drawNote(svg, { ...twice, said: "= seen before", colour: "--dim", other: twice.first, why }, sees);
    });
    TRACE.timers.forEach((timer) => {
        drawNote(svg, { ...timer, said: "↻ timer", colour: "--rnr", why: null, isInward: true }, sees);
    });
    TRACE.events.forEach((event, stamp) => {
        const wakes = { queue: event.queues[0], stamp, said: "wakes", colour: "--rnr" };
        if (event.verb === "wake") drawNote(svg, wakes, sees);
    });
}

function drawInjected(svg, row) {
    const event = TRACE.events[row.stamp];
    const lane = places.lanes.get(event.queues[0]);
    if (row.folded || event.verb !== "inject" || !lane) return;
    const y = heightOf(row.stamp);
    const from = lane.x - lane.outward * 80;
    element(svg, "path", {
        d: `M${from},${y}L${lane.x - lane.outward * 4},${y}`,
        stroke: colour("--odd"),
        "stroke-width": 1.8,
        "marker-end": "url(#arrow-odd)",
    });
    const style = `fill:${colour("--odd")}`;
    text(svg, from, y - 4, "injected", { class: "halo packet", style, ...anchored(lane.outward) });
}

// ---- the map of the whole, at the right: packets, losses, denials, completions

function drawMap() {
    const canvas = byId("map");
    const pic = byId("pic");
    const height = (canvas.height = canvas.clientHeight);
    const context = canvas.getContext("2d");
    const style = getComputedStyle(document.documentElement);
    const scale = height / wholeHeight();
    const size = Math.min(5, Math.max(1.5, height / Math.max(1, rows.length)));
    const put = (stamp, x, name) => {
        context.fillStyle = style.getPropertyValue(name);
        context.fillRect(x, heightOf(stamp) * scale, 9, size);
    };
    context.fillStyle = style.getPropertyValue("--line");
    context.fillRect(0, pic.scrollTop * scale, canvas.width, Math.max(3, pic.clientHeight * scale));
    TRACE.packets.forEach((packet) => {
        put(packet.sent, 1, PACKET_COLOURS[packet.kind]);
        if (packet.lost) put(packet.sent, 11, "--lost");
    });
    TRACE.accesses.filter((access) => access.denied).forEach((access) => put(access.stamp, 21, "--bad"));
    TRACE.done.forEach((done) => put(done.stamp, 30, done.status === "success" ? "--ok" : "--bad"));
}

// ---- choosing

function refresh() {
    makeRows();
    makePlaces();
    drawTop();
    draw();
}

// Unfolds the row that hides an event.
function unfold(stamp) {
    const row = rows[Math.floor(rowOf[stamp])];
    if (row && row.folded) {
        shown.unfolded.add(row.stamp);
        makeRows();
    }
}

// Keeps the lines of an event, or lets them go where they are kept.
function select(stamp) {
    if (pinned === stamp) {
        pinned = null;
        hideTip();
    } else {
        pinned = stamp;
        showTip([stamp]);
    }
    draw();
}

// Goes to an event, and keeps its lines.
function goTo(stamp) {
    unfold(stamp);
    byId("pic").scrollTop = Math.max(0, heightOf(stamp) - byId("pic").clientHeight / 2);
    pinned = stamp;
    showTip([stamp]);
    draw();
}

function goToNextMatch() {
    const from = (pinned ?? -1) + 1;
    const count = TRACE.events.length;
    for (let step = 0; step < count; step++) {
        const stamp = (from + step) % count;
        if (matches(TRACE.events[stamp])) {
            goTo(stamp);
            return;
        }
    }
}

function goToRow(row) {
    if (!rows.length) return;
    const { stamp, folded } = rows[Math.max(0, Math.min(rows.length - 1, row))];
    if (!folded) {
        goTo(stamp);
        return;
    }
    byId("pic").scrollTop = Math.max(0, heightOf(stamp) - byId("pic").clientHeight / 2);
    pinned = stamp;
    draw();
}

function search() {
    try {
        shown.pattern = byId("find").value ? new RegExp(byId("find").value) : null;
    } catch {
        return; // it is not whole yet
    }
    shown.matchesOnly = byId("only").checked;
    refresh();
}

// ---- the side: what did not succeed, the keys, the replies of a group

const HELP = [
    "Point at anything for the trace's own lines; click an event to keep them.",
    "Click a packet, or the thin bar beside a lane, to follow one request; a key's bar to follow that key.",
    "Esc follows nothing.",
    "Arrow keys go from event to event. A lane is green in Ready to Send, and red in Error.",
];

function addTo(parent, tag, classes, content) {
    const made = document.createElement(tag);
    made.className = classes;
    made.textContent = content;
    parent.appendChild(made);
    return made;
}

function addFailure(side, failure) {
    const card = addTo(side, "div", "card", "");
    const end = failure.headline.indexOf(": ");
    addTo(card, "b", "", `@${failure.stamp} ${failure.headline.slice(0, end)}`);
    card.append(failure.headline.slice(end));
    if (failure.reason) addTo(card, "small", "", failure.reason);
    card.onclick = () => goTo(failure.stamp);
}

function addKeys(side) {
    let count = -1;
    TRACE.keys.slice(0, MOST_KEYS).forEach((line) => {
        const isUse = line.startsWith("    ");
        const made = addTo(side, "div", isUse ? "use" : "key", line.trim());
        if (isUse) return;
        count++;
        const grant = TRACE.grants[count];
        made.onclick = () => {
            followKey(grant);
            if (followed) byId("pic").scrollTop = Math.max(0, heightOf(grant.granted) - 60);
        };
    });
}

function fillSide() {
    const side = byId("side");
    const count = TRACE.failures.length;
    addTo(side, "h4", "", count ? `What did not succeed (${count})` : "All succeeded");
    TRACE.failures.slice(0, MOST_CARDS).forEach((failure) => addFailure(side, failure));
    if (count > MOST_CARDS) addTo(side, "div", "use", `and ${count - MOST_CARDS} more: tools/told tells them all`);
    addTo(side, "h4", "", "Keys, and who touched which bytes");
    addKeys(side);
    if (TRACE.replies.length) {
        addTo(side, "h4", "", "The group alone");
        TRACE.replies.forEach((reply) => addTo(side, "div", "use", reply));
    }
    addTo(side, "h4", "", "Help");
    HELP.forEach((sentence) => addTo(side, "div", "use", sentence));
}

function addLaneBoxes() {
    if (TRACE.queues.length <= 2) return;
    TRACE.queues.forEach((queue) => {
        const label = addTo(byId("lanes"), "label", "", "");
        const box = addTo(label, "input", "", "");
        box.type = "checkbox";
        box.checked = shown.queues.has(queue);
        box.onchange = () => {
            if (box.checked) shown.queues.add(queue);
            else shown.queues.delete(queue);
            refresh();
        };
        label.append(`${queue} `);
    });
}

// ---- events of the window

function listen() {
    let isAsked = false;
    byId("find").oninput = search;
    byId("only").onchange = search;
    byId("find").onkeydown = (event) => {
        if (event.key === "Enter" && shown.pattern) goToNextMatch();
    };
    byId("pic").onscroll = () => {
        if (isAsked) return;
        isAsked = true;
        requestAnimationFrame(() => {
            isAsked = false;
            draw();
        });
    };
    byId("map").onclick = (event) => {
        const middle = (event.offsetY / byId("map").clientHeight) * wholeHeight();
        byId("pic").scrollTop = middle - byId("pic").clientHeight / 2;
    };
    window.onresize = () => {
        makePlaces();
        drawTop();
        draw();
    };
    window.onkeydown = (event) => {
        if (event.target.tagName === "INPUT") return;
        const step = { ArrowDown: 1, j: 1, ArrowUp: -1, k: -1 }[event.key];
        if (event.key === "Escape") {
            followed = null;
            pinned = null;
            hideTip();
            draw();
        } else if (step) {
            event.preventDefault();
            goToRow((pinned === null ? -1 : Math.floor(rowOf[pinned])) + step);
        }
    };
}

// What the address asks for, as `#at=24`, `#find=denied`, `#only=1`, `#queues=0/256,1/256` or `#request=0/256:3`.
function begin() {
    const asked = new URLSearchParams(location.hash.slice(1));
    if (asked.get("queues")) shown.queues = new Set(asked.get("queues").split(","));
    if (asked.get("find")) {
        byId("find").value = asked.get("find");
        byId("only").checked = Boolean(asked.get("only"));
    }
    byId("counts").textContent = TRACE.counts;
    byId("about").textContent = TRACE.about;
    fillSide();
    addLaneBoxes();
    search();
    if (!rows.length) refresh();
    if (asked.get("at") && TRACE.events[Number(asked.get("at"))]) goTo(Number(asked.get("at")));
    if (asked.get("request")) {
        const [queue, place] = asked.get("request").split(":");
        const request = TRACE.requests.find((one) => one.queue === queue && String(one.place) === place);
        if (request) {
            followRequest(request);
            goTo(request.posted);
        }
    }
}

listen();
begin();
