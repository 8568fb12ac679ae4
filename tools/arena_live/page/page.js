// The page of the live front: it shows the arena, sends what is pressed, and shows its own player's motion at once.
//
// In this order: what comes as bytes, the rules of a move (for the own player alone), the match, the socket, the keys,
// the drawing and the panel. docs/FORMATS.md has the bytes and rules, docs/LIVE.md the messages. Lengths are in
// sub-units.

// ---- What comes as bytes.

const KINDS = ["player", "ammo", "gem", "teleporter", "goal", "lift"];
const PLAYER_BODY = [-4096, -4096, -6144, 4096, 4096, 8192];
const ITEM_SIDE = 8192;
const FIRST_THING = 64;
const JUMP = 1, SHOOT = 2;

export function readMap(text) {
  const map = { arena: null, shots: false, blocks: [], spawns: [], things: [] };
  for (const line of text.split("\n")) {
    const [word, ...fields] = line.split(" ");
    const numbers = fields.map(Number);
    if (word === "arena") map.arena = numbers;
    else if (word === "shots") map.shots = true;
    else if (word === "block") map.blocks.push(numbers);
    else if (word === "spawn") map.spawns.push(numbers);
    else if (word === "item") map.things.push({ kind: fields[3], origin: numbers.slice(0, 3) });
    else if (word === "teleport") {
      map.things.push({ kind: "teleporter", box: numbers.slice(0, 6), to: numbers.slice(6) });
    } else if (word === "goal") map.things.push({ kind: "goal", box: numbers });
    else if (word === "lift") map.things.push({ kind: "lift", box: numbers.slice(0, 6), rise: numbers[6] });
  }
  return map;
}

export function readSnapshot(view) {
  const at = (offset) => view.getInt32(offset, true);
  const seen = {
    frame: view.getUint32(1, true), slot: view.getUint8(5),
    origin: [at(6), at(10), at(14)], velocity: [at(18), at(22), at(26)],
    flags: view.getUint8(30), ammo: view.getUint8(31), carry: view.getUint8(32),
    score: view.getUint32(33, true), number: view.getUint32(37, true), entities: new Map(),
  };
  const count = view.getUint16(41, true);
  for (let offset = 43; offset < 43 + 16 * count; offset += 16) {
    const id = view.getUint16(offset, true);
    const kind = KINDS[view.getUint8(offset + 2)], isThere = view.getUint8(offset + 3) === 1;
    seen.entities.set(id, { id, kind, isThere, origin: [at(offset + 4), at(offset + 8), at(offset + 12)] });
  }
  return seen;
}

// A packet of version 2 with these commands, whose numbers follow each other.
function movePacket(commands) {
  const view = new DataView(new ArrayBuffer(7 + 6 * commands.length));
  view.setUint8(0, 2);
  view.setUint8(1, 2);
  view.setUint32(2, commands[commands.length - 1].number, true);
  view.setUint8(6, commands.length);
  commands.forEach((command, i) => {
    const offset = 7 + 6 * i;
    view.setUint8(offset, command.ms);
    view.setInt16(offset + 1, command.x, true);
    view.setInt16(offset + 3, command.y, true);
    view.setUint8(offset + 5, command.buttons);
  });
  return new Uint8Array(view.buffer);
}

// ---- The rules of a move, as the program has them, so that what is shown at once is what the next snapshot says.

const cut = Math.trunc;
const AXES = [0, 1, 2];

function root(n) {
  let r = Math.floor(Math.sqrt(n));
  while (r * r > n) r -= 1;
  while ((r + 1) * (r + 1) <= n) r += 1;
  return r;
}

function bodyAt(origin) {
  return PLAYER_BODY.map((part, i) => origin[i % 3] + part);
}

function overlapsOn(axis, a, b, moved) {
  return a[axis] + moved < b[axis + 3] && b[axis] < a[axis + 3] + moved;
}

function overlaps(a, b, moved) {
  return AXES.every((axis) => overlapsOn(axis, a, b, moved[axis]));
}

// How far a body goes along `way`: what was moved, whether that is the whole way, and the axis of what it hit.
function trace(body, way, solids) {
  const n = Math.max(...way.map(Math.abs));
  const step = (k) => way.map((part) => cut((part * k) / n));
  const swept = AXES.map((i) => [body[i] + Math.min(0, way[i]), body[i + 3] + Math.max(0, way[i])]);
  const near = solids.filter((solid) => AXES.every((i) => swept[i][0] < solid[i + 3] && solid[i] < swept[i][1]));
  if (near.length > 0) {
    for (let k = 1; k <= n; k += 1) {
      const next = step(k), hit = near.find((solid) => overlaps(body, solid, next));
      if (hit !== undefined) {
        const moved = step(k - 1);
        return { moved, steps: k - 1, isWhole: false, axis: AXES.find((i) => !overlapsOn(i, body, hit, moved[i])) };
      }
    }
  }
  return { moved: [...way], steps: n, isWhole: true };
}

function slide(origin, velocity, ms, solids) {
  let at = [...origin], rest = velocity.map((part) => cut((part * ms) / 1000)), hitsSide = false;
  velocity = [...velocity];
  for (let turn = 0; turn < 4 && rest.some((part) => part !== 0); turn += 1) {
    const { moved, isWhole, axis } = trace(bodyAt(at), rest, solids);
    at = at.map((part, i) => part + moved[i]);
    rest = rest.map((part, i) => part - moved[i]);
    if (isWhole) break;
    hitsSide ||= axis === 0 || axis === 1;
    if (axis === undefined) return { origin: at, velocity: [0, 0, 0], hitsSide };
    velocity[axis] = rest[axis] = 0;
  }
  return { origin: at, velocity, hitsSide };
}

function isOnGround(origin, solids) {
  const body = bodyAt(origin);
  return solids.some((solid) => overlaps(body, solid, [0, 0, -1]));
}

function withSpeedRules([vx, vy, vz], command, walks) {
  const { ms } = command;
  if (walks) {
    const speed = root(vx * vx + vy * vy);
    if (speed > 0) {
      const slower = Math.max(0, speed - cut((ms * Math.max(speed, 25600) * 4) / 1000));
      [vx, vy] = [cut((vx * slower) / speed), cut((vy * slower) / speed)];
    }
  }
  const wishX = command.x * 256, wishY = command.y * 256, length = root(wishX * wishX + wishY * wishY);
  if (length > 0) {
    const wishSpeed = Math.min(length, 81920), cap = walks ? wishSpeed : Math.min(wishSpeed, 7680);
    const add = cap - cut((vx * wishX + vy * wishY) / length);
    if (add > 0) {
      const gain = Math.min(cut((10 * wishSpeed * ms) / 1000), add);
      [vx, vy] = [vx + cut((gain * wishX) / length), vy + cut((gain * wishY) / length)];
    }
  }
  if (!walks) vz -= cut((204800 * ms) / 1000);
  return [vx, vy, vz].map((part) => Math.max(-512000, Math.min(512000, part)));
}

// The player's origin and velocity after a command.
export function move({ origin, velocity }, command, solids) {
  const jumps = (command.buttons & JUMP) !== 0;
  const onGround = isOnGround(origin, solids), walks = onGround && !jumps;
  const launched = onGround && jumps ? [velocity[0], velocity[1], velocity[2] + 69120] : velocity;
  const fast = withSpeedRules(launched, command, walks);
  const plain = slide(origin, fast, command.ms, solids);
  if (!walks || !plain.hitsSide) return plain;
  const up = trace(bodyAt(origin), [0, 0, 4608], solids);
  const raised = [origin[0], origin[1], origin[2] + up.steps];
  const along = slide(raised, [fast[0], fast[1], 0], command.ms, solids);
  const down = up.steps > 0 ? trace(bodyAt(along.origin), [0, 0, -up.steps], solids) : { steps: 0 };
  const stairs = [along.origin[0], along.origin[1], along.origin[2] - down.steps];
  const far = (to) => (to[0] - origin[0]) ** 2 + (to[1] - origin[1]) ** 2;
  if (far(stairs) > far(plain.origin) && isOnGround(stairs, solids)) {
    return { origin: stairs, velocity: [along.velocity[0], along.velocity[1], 0] };
  }
  return plain;
}

// What a player can't pass: the walls and blocks, and then what a snapshot shows, by id.
export function fixedSolids(map) {
  const [x0, y0, z0, x1, y1, z1] = map.arena, far = 16384;
  const outer = [x0 - far, y0 - far, z0 - far, x1 + far, y1 + far, z1 + far];
  const walls = [[3, x0], [0, x1], [4, y0], [1, y1], [5, z0], [2, z1]].map(([side, at]) => {
    const wall = [...outer];
    wall[side] = at;
    return wall;
  });
  return [...walls, ...map.blocks];
}

// ---- What of the map is shown: all of it, or of one with storeys what stands at a height or below it.

const HEAD = PLAYER_BODY[5] - 1;  // the highest place of a player, above its origin

function isOver(body, block) {
  return block[2] >= body[5] && overlapsOn(0, body, block, 0) && overlapsOn(1, body, block, 0);
}

// Whether a player fits under a block.
export function hasStoreys(map) {
  return map.blocks.some((block) => block[2] - map.arena[2] >= PLAYER_BODY[5] - PLAYER_BODY[2]);
}

// The highest height at which the most spawns are seen: from the head of who joins there to below what is over it.
export function heightOfSpawns(map) {
  const seen = map.spawns.map((spawn) => {
    const over = map.blocks.filter((block) => isOver(bodyAt(spawn), block)).map((block) => block[2]);
    return [spawn[2] + HEAD, Math.min(map.arena[5], ...over) - 1];
  });
  const count = (height) => seen.filter(([low, high]) => low <= height && height <= high).length;
  const heights = seen.map(([, high]) => high).sort((a, b) => b - a);
  return heights.reduce((best, height) => (count(height) > count(best) ? height : best));
}

// ---- The match as this page knows it.

const FALL_FRAMES = 40, SHOT_SHOWN = 600;
const match = {
  map: null, solids: [], spawnHeight: null, period: 50, slot: null, leaves: false, seen: null, before: null, seenAt: 0,
  scores: new Map(), downUntil: new Map(), shots: [], headings: new Map(), refusals: 0, delay: null,
};

// The own player, ahead of the last snapshot: the commands that it doesn't show yet are run again on each.
const own = { number: 0, pending: [], state: null, previous: null, steppedAt: 0, error: [0, 0, 0] };

function movingSolids(seen) {
  const solids = [];
  for (const entity of seen.entities.values()) {
    if (entity.kind === "player") solids.push(bodyAt(entity.origin));
    else if (entity.kind === "lift") {
      const { box } = match.map.things[entity.id - FIRST_THING], [x, y, z] = entity.origin;
      solids.push([x, y, z, x + box[3] - box[0], y + box[4] - box[1], z + box[5] - box[2]]);
    }
  }
  return solids;
}

function allSolids(seen) {
  return [...match.solids, ...movingSolids(seen)];
}

function takeSnapshot(seen, now) {
  match.before = match.seen;
  match.seen = seen;
  match.seenAt = now;
  for (const [id, entity] of [...seen.entities, [seen.slot, { kind: "player", origin: seen.origin }]]) {
    if (entity.kind === "player") noteHeading(id, entity.origin);
  }
  if (match.slot !== null && seen.slot === match.slot) correctOwn(seen, now);
  showOwn();
}

function noteHeading(id, origin) {
  const last = match.headings.get(id) ?? { x: origin[0], y: origin[1], angle: 0 };
  const x = origin[0] - last.x, y = origin[1] - last.y;
  match.headings.set(id, { x: origin[0], y: origin[1], angle: Math.hypot(x, y) > 200 ? Math.atan2(y, x) : last.angle });
}

function correctOwn(seen, now) {
  const done = own.pending.filter((command) => command.number <= seen.number);
  if (done.length > 0) {
    const delay = now - done[done.length - 1].sentAt;
    match.delay = match.delay === null ? delay : 0.9 * match.delay + 0.1 * delay;
  }
  own.pending = own.pending.filter((command) => command.number > seen.number);
  let state = { origin: seen.origin, velocity: seen.velocity };
  if (!isDown(match.slot)) {
    const solids = allSolids(seen);
    for (const command of own.pending) state = move(state, command, solids);
  }
  const shown = own.state ? own.state.origin : state.origin;
  const error = shown.map((part, i) => part - state.origin[i]);
  // A small error is faded out; after a leap the player is where it is.
  own.error = Math.max(...error.map(Math.abs)) < 16384 ? own.error.map((part, i) => part + error[i]) : [0, 0, 0];
  if (own.previous) own.previous = { origin: own.previous.origin.map((part, i) => part - error[i]) };
  own.state = state;
}

function isDown(slot) {
  return match.seen !== null && (match.downUntil.get(slot) ?? 0) > match.seen.frame;
}

// ---- The socket.

const WELCOME = 1, SNAPSHOT = 2, EVENTS = 3, GOODBYE = 4;
const TOKEN_BYTES = 16;
const JOIN = [1, 1], LEAVE = [1, 3];
let socket = null, token = null, closedFor = "";

function connect() {
  socket = new WebSocket(`${location.protocol === "https:" ? "wss" : "ws"}://${location.host}/live`);
  socket.binaryType = "arraybuffer";
  socket.onmessage = (message) => take(new DataView(message.data));
  socket.onclose = () => {
    token = null;
    becomeWatcher();
    showState(`not connected${closedFor}: trying again`, true);
    setTimeout(connect, 1500);
  };
}

function send(...bytes) {
  if (token === null || socket.readyState !== WebSocket.OPEN) return;
  const message = new Uint8Array(token.length + bytes.length);
  message.set(token);
  message.set(bytes, token.length);
  socket.send(message);
}

function take(view) {
  const kind = view.getUint8(0), body = new DataView(view.buffer, 1);
  if (kind === WELCOME) {
    token = new Uint8Array(view.buffer.slice(1, 1 + TOKEN_BYTES));
    match.period = 1000 / body.getUint8(TOKEN_BYTES + 2);
    closedFor = "";
    becomeWatcher();
  } else if (kind === SNAPSHOT) {
    takeSnapshot(readSnapshot(body), performance.now());
  } else if (kind === EVENTS) {
    takeEvents(JSON.parse(new TextDecoder().decode(body)));
  } else if (kind === GOODBYE) {
    closedFor = ` (${new TextDecoder().decode(body)})`;
  }
}

function becomeWatcher() {
  match.slot = null;
  match.leaves = false;
  Object.assign(own, { number: 0, pending: [], state: null, previous: null });
  showState("watching", false);
}

function takeEvents(told) {
  if (match.slot === null && told.you !== null) {
    match.slot = told.you;
    showState("playing", false);
  }
  for (const event of told.events ?? []) takeEvent(event, told.frame);
  if (told.scores) match.scores = new Map(told.scores);
  // A leave is refused where it came as one packet too many of its frame.
  if (match.leaves && told.refused?.includes("front-packets")) send(...LEAVE);
  if (told.refused) match.refusals += told.refused.length;
  if (told.refused) addLine(`refused: ${[...new Set(told.refused)].join(", ")}`);
  showPlayers();
}

function takeEvent([name, slot, other], frame) {
  if (name === "joined") addLine(`player ${slot} joined`);
  if (name === "left") addLine(`player ${slot} left`);
  if (name === "took") addLine(`player ${slot} took ${other === "ammo" ? "ammunition" : "a gem"}`);
  if (name === "hit" || name === "down") {
    addLine(name === "hit" ? `player ${other} hit player ${slot}` : `player ${slot} fell, hit by player ${other}`);
    match.shots.push({ from: placeOf(other), to: placeOf(slot), until: performance.now() + SHOT_SHOWN });
    if (name === "down") match.downUntil.set(slot, frame + FALL_FRAMES);
  }
  if (name === "score") match.scores.set(slot, other);
  if (name === "score" && other > 0) addLine(`player ${slot} has score ${other}`);
  if (name === "left") match.scores.delete(slot);
}

function placeOf(slot) {
  if (match.seen === null) return null;
  if (slot === match.seen.slot) return match.seen.origin;
  return match.seen.entities.get(slot)?.origin ?? null;
}

// ---- The keys.

const WALK = {
  KeyW: [0, 1], ArrowUp: [0, 1], KeyS: [0, -1], ArrowDown: [0, -1],
  KeyA: [-1, 0], ArrowLeft: [-1, 0], KeyD: [1, 0], ArrowRight: [1, 0],
};
const WISH = 320, SHOT_PAUSE = 150, LONGEST_MS = 50;
const keys = { down: new Set(), walked: 0, pointer: null, pressed: false, shotAt: 0, isNear: false };

function wishOf(angle) {
  return { x: Math.round(WISH * Math.cos(angle)), y: Math.round(WISH * Math.sin(angle)) };
}

function walkAngle() {
  const ways = [...keys.down].filter((code) => WALK[code]).map((code) => WALK[code]);
  const x = ways.reduce((sum, way) => sum + way[0], 0), y = ways.reduce((sum, way) => sum + way[1], 0);
  return x === 0 && y === 0 ? null : Math.atan2(y, x);
}

function aimAngle() {
  if (keys.pointer === null || own.state === null) return keys.walked;
  const [x, y] = drawing.toArena(keys.pointer), [ownX, ownY] = own.state.origin;
  return Math.atan2(y - ownY, x - ownX);
}

// The commands for the next milliseconds: a walk, and a shot of one millisecond where one is wanted.
function nextCommands(ms, now) {
  const angle = walkAngle();
  if (angle !== null) keys.walked = angle;
  const walk = { ms, ...(angle === null ? { x: 0, y: 0 } : wishOf(angle)), buttons: keys.down.has("Space") ? JUMP : 0 };
  const wantsShot = (keys.pressed || keys.down.has("KeyF")) && match.map.shots && match.seen.ammo > 0;
  if (!wantsShot || now - keys.shotAt < SHOT_PAUSE) return [walk];
  keys.shotAt = now;
  const aim = aimAngle(), [x, y, z] = own.state.origin;
  const to = [x + 20000 * Math.cos(aim), y + 20000 * Math.sin(aim), z];
  match.shots.push({ from: [x, y, z], to, until: now + 120, isOwn: true });
  return [{ ...walk, ms: ms - 1 }, { ms: 1, ...wishOf(aim), buttons: SHOOT }];
}

let steppedTo = null, saidAt = 0;

// Commands for the time that has passed since the last ones. A page that was asleep doesn't make up for its sleep; one
// that was late for a moment does so by longer commands, since the front takes seven packets of a frame.
function step(now) {
  if (now - saidAt > 1000) {
    saidAt = now;
    send();
  }
  if (match.slot === null || match.leaves || match.seen === null || match.seen.slot !== match.slot || own.state === null) {
    steppedTo = now;
    return;
  }
  const ms = Math.max(10, Math.min(LONGEST_MS, Math.round(match.period / 2)));
  if (now - steppedTo > 250) steppedTo = now - ms;
  const solids = allSolids(match.seen);
  while (now - steppedTo >= ms) {
    const longer = Math.min(Math.floor((now - steppedTo) / ms), Math.floor(LONGEST_MS / ms)) * ms;
    const commands = nextCommands(longer, now);
    for (const command of commands) {
      own.number += 1;
      Object.assign(command, { number: own.number, sentAt: now });
      own.previous = own.state;
      if (!isDown(match.slot)) own.state = move(own.state, command, solids);
      own.pending.push(command);
    }
    steppedTo += longer;
    own.steppedAt = steppedTo;
    send(...movePacket(commands));
  }
}

// From now on until the new welcome no move is sent: it would be refused.
function leave() {
  match.leaves = true;
  send(...LEAVE);
  showState("leaving", false);
}

function listen(canvas) {
  addEventListener("keydown", (event) => {
    if (event.ctrlKey || event.metaKey || event.altKey) return;
    if (WALK[event.code] || ["Space", "KeyF"].includes(event.code)) event.preventDefault();
    if (event.code === "KeyZ" && !event.repeat) keys.isNear = !keys.isNear;
    keys.down.add(event.code);
  });
  addEventListener("keyup", (event) => keys.down.delete(event.code));
  addEventListener("blur", () => keys.down.clear());
  canvas.addEventListener("pointermove", (event) => { keys.pointer = [event.offsetX, event.offsetY]; });
  canvas.addEventListener("pointerleave", () => { keys.pointer = null; });
  canvas.addEventListener("pointerdown", () => { keys.pressed = true; });
  addEventListener("pointerup", () => { keys.pressed = false; });
  element("join").addEventListener("click", (event) => {
    if (match.slot === null) send(...JOIN);
    else leave();
    event.target.blur();
  });
}

// ---- The drawing.

const DEPTH = 40960;  // as far below what is shown a floor is half as pale
const THING_COLOURS = { ammo: "#e58a2b", gem: "#3fc6d9", teleporter: "#a56be0", goal: "#4fbf67", lift: "#c8b98a" };

function playerColour(slot) {
  return `hsl(${(slot * 137) % 360} 75% ${slot % 2 ? 68 : 58}%)`;
}

class Drawing {
  constructor(canvas) {
    this.canvas = canvas;
    this.pen = canvas.getContext("2d");
    this.blocks = [...match.map.blocks].sort((a, b) => a[5] - b[5]);
    this.height = null;
  }

  // Fits the arena into the canvas, or shows a part of it around the player.
  fit() {
    const { width, height } = this.canvas.getBoundingClientRect(), ratio = devicePixelRatio || 1;
    const [x0, y0, , x1, y1] = match.map.arena;
    if (this.canvas.width !== Math.round(width * ratio) || this.canvas.height !== Math.round(height * ratio)) {
      this.canvas.width = Math.round(width * ratio);
      this.canvas.height = Math.round(height * ratio);
    }
    const whole = 0.98 * Math.min(this.canvas.width / (x1 - x0), this.canvas.height / (y1 - y0));
    const near = Math.min(this.canvas.width, this.canvas.height) / 65536;
    const isNear = keys.isNear && match.seen !== null && near > whole;
    this.ratio = ratio;
    this.scale = isNear ? near : whole;
    this.middle = isNear ? ownPlace().slice(0, 2) : [(x0 + x1) / 2, (y0 + y1) / 2];
  }

  x(at) { return this.canvas.width / 2 + (at - this.middle[0]) * this.scale; }
  y(at) { return this.canvas.height / 2 - (at - this.middle[1]) * this.scale; }

  toArena([x, y]) {
    return [
      this.middle[0] + (x * this.ratio - this.canvas.width / 2) / this.scale,
      this.middle[1] - (y * this.ratio - this.canvas.height / 2) / this.scale,
    ];
  }

  rectangle([x0, y0, , x1, y1]) {
    return [this.x(x0), this.y(y1), (x1 - x0) * this.scale, (y1 - y0) * this.scale];
  }

  // What stands above the head of the player that is watched is left out of a map with storeys.
  cut(now) {
    if (match.spawnHeight === null) return;
    this.height = match.seen === null ? match.spawnHeight : ownPlace(now)[2] + HEAD;
  }

  stands(box) {
    return this.height === null || box[2] <= this.height;
  }

  // The paler the higher a top is; what is cut is dark.
  shade(top) {
    if (this.height !== null) {
      return top > this.height ? "#11151b" : `hsl(215 14% ${18 + (54 * DEPTH) / (DEPTH + this.height - top)}%)`;
    }
    const [, , z0, , , z1] = match.map.arena, part = Math.sqrt((top - z0) / (z1 - z0));
    return `hsl(215 ${22 - 10 * part}% ${17 + 50 * part}%)`;
  }

  all(now) {
    if (match.map === null) return;
    this.fit();
    this.cut(now);
    const { pen } = this;
    pen.fillStyle = "#14171c";
    pen.fillRect(0, 0, this.canvas.width, this.canvas.height);
    this.boxes();
    this.things();
    this.shots(now);
    this.players(now);
  }

  boxes() {
    const { pen } = this;
    pen.fillStyle = this.shade(match.map.arena[2]);
    pen.fillRect(...this.rectangle(match.map.arena));
    for (const block of this.blocks.filter((block) => this.stands(block))) {
      pen.fillStyle = this.shade(block[5]);
      pen.strokeStyle = "#0d0f13";
      pen.lineWidth = this.ratio;
      pen.fillRect(...this.rectangle(block));
      pen.strokeRect(...this.rectangle(block));
    }
  }

  things() {
    match.map.things.forEach((thing, i) => {
      const seen = match.seen?.entities.get(FIRST_THING + i);
      const origin = seen?.origin ?? thing.origin ?? thing.box.slice(0, 3);
      if (!this.stands(origin)) return;
      this.pen.globalAlpha = seen && !seen.isThere ? 0.25 : 1;
      this.pen.strokeStyle = this.pen.fillStyle = THING_COLOURS[thing.kind];
      this.pen.lineWidth = 2 * this.ratio;
      if (thing.box) this.boxThing(thing, origin);
      else this.item(thing.kind, origin, !seen || seen.isThere);
      this.pen.globalAlpha = 1;
    });
  }

  boxThing(thing, origin) {
    const { pen } = this, rectangle = this.rectangle(thing.box);
    if (thing.kind === "lift") {
      pen.fillStyle = this.shade(origin[2] + thing.box[5] - thing.box[2]);
      pen.fillRect(...rectangle);
    } else {
      pen.globalAlpha = 0.35;
      pen.fillRect(...rectangle);
      pen.globalAlpha = 1;
    }
    pen.setLineDash(thing.kind === "lift" ? [] : [6 * this.ratio, 4 * this.ratio]);
    pen.strokeRect(...rectangle);
    if (thing.to) {
      const [x0, y0, , x1, y1] = thing.box;
      pen.globalAlpha = 0.45;
      this.line((x0 + x1) / 2, (y0 + y1) / 2, thing.to[0], thing.to[1]);
      pen.setLineDash([]);
      this.disc(thing.to[0], thing.to[1], 1200);
    }
    pen.setLineDash([]);
  }

  item(kind, [x, y], isThere) {
    const { pen } = this, middleX = this.x(x + ITEM_SIDE / 2), middleY = this.y(y + ITEM_SIDE / 2);
    const half = Math.max(3 * this.ratio, 2400 * this.scale);
    pen.beginPath();
    if (kind === "gem") {
      pen.moveTo(middleX, middleY - half);
      for (const [dx, dy] of [[half, 0], [0, half], [-half, 0]]) pen.lineTo(middleX + dx, middleY + dy);
      pen.closePath();
    } else {
      pen.rect(middleX - half, middleY - half * 0.7, 2 * half, 1.4 * half);
    }
    if (isThere) pen.fill();
    else pen.stroke();
  }

  line(x0, y0, x1, y1) {
    this.pen.beginPath();
    this.pen.moveTo(this.x(x0), this.y(y0));
    this.pen.lineTo(this.x(x1), this.y(y1));
    this.pen.stroke();
  }

  disc(x, y, radius) {
    this.pen.beginPath();
    this.pen.arc(this.x(x), this.y(y), radius * this.scale, 0, 2 * Math.PI);
    this.pen.fill();
  }

  shots(now) {
    match.shots = match.shots.filter((shot) => shot.until > now);
    for (const { from, to, until, isOwn } of match.shots) {
      if (from === null || to === null) continue;
      this.pen.strokeStyle = isOwn ? "#ffd76a" : "#ff5a4d";
      this.pen.lineWidth = 2.5 * this.ratio;
      this.pen.globalAlpha = Math.min(1, (until - now) / SHOT_SHOWN + 0.2);
      this.line(from[0], from[1], to[0], to[1]);
    }
    this.pen.globalAlpha = 1;
  }

  players(now) {
    if (match.seen === null) return;
    const part = Math.min(1, (now - match.seenAt) / match.period);
    for (const entity of match.seen.entities.values()) {
      if (entity.kind !== "player") continue;
      const before = match.before?.entities.get(entity.id)?.origin;
      this.player(entity.id, between(before, entity.origin, part));
    }
    this.player(match.seen.slot, ownPlace(now));
  }

  player(slot, [x, y, z]) {
    const { pen } = this, side = 4096 * this.scale, middleX = this.x(x), middleY = this.y(y);
    const isOwn = slot === match.slot, lies = isDown(slot);
    pen.globalAlpha = lies ? 0.35 : 1;
    pen.fillStyle = playerColour(slot);
    pen.fillRect(middleX - side, middleY - side, 2 * side, 2 * side);
    pen.strokeStyle = isOwn || slot === match.seen.slot ? "#ffffff" : "#14171c";
    pen.lineWidth = (isOwn ? 2.5 : 1.5) * this.ratio;
    pen.strokeRect(middleX - side, middleY - side, 2 * side, 2 * side);
    const angle = isOwn ? aimAngle() : match.headings.get(slot)?.angle ?? 0;
    pen.strokeStyle = isOwn ? "#ffffff" : playerColour(slot);
    pen.lineWidth = 2.5 * this.ratio;
    const alongX = Math.cos(angle), alongY = Math.sin(angle);
    this.line(x + 4096 * alongX, y + 4096 * alongY, x + 9000 * alongX, y + 9000 * alongY);
    this.heightBar(middleX, middleY, side, z);
    pen.fillStyle = "#14171c";
    pen.font = `bold ${Math.max(8 * this.ratio, 1.3 * side)}px system-ui, sans-serif`;
    pen.textAlign = "center";
    pen.textBaseline = "middle";
    pen.fillText(String(slot), middleX, middleY + this.ratio);
    pen.globalAlpha = 1;
  }

  // A bar at the player's right: how high its feet are, of the arena's height.
  heightBar(middleX, middleY, side, z) {
    const { pen } = this, [, , z0, , , z1] = match.map.arena;
    const part = Math.max(0, Math.min(1, (z + PLAYER_BODY[2] - z0) / (z1 - z0)));
    const width = Math.max(3 * this.ratio, 0.35 * side);
    const left = middleX + side + 2 * this.ratio, tall = 2 * side;
    pen.fillStyle = "#59636f";
    pen.fillRect(left, middleY - side, width, tall);
    pen.fillStyle = "#f2f4f8";
    pen.fillRect(left, middleY + side - tall * part, width, tall * part);
  }
}

function between(before, after, part) {
  const isLeap = before && Math.max(...AXES.map((i) => Math.abs(after[i] - before[i]))) > 16384;
  return before && !isLeap ? after.map((value, i) => before[i] + (value - before[i]) * part) : after;
}

// Where the player that is watched is drawn: the own one ahead of its snapshots, another one between two of them.
function ownPlace(now = performance.now()) {
  if (match.slot !== null && match.seen.slot === match.slot && own.state !== null) {
    const ms = Math.max(10, match.period / 2), part = Math.min(1, Math.max(0, (now - own.steppedAt) / ms));
    const place = between(own.previous?.origin, own.state.origin, part);
    return place.map((value, i) => value + own.error[i]);
  }
  const before = match.before?.slot === match.seen.slot ? match.before.origin : null;
  return between(before, match.seen.origin, Math.min(1, (now - match.seenAt) / match.period));
}

// ---- The panel.

const element = (id) => document.getElementById(id);
const MOST_LINES = 10;

// What the map has: shots, and a goal for its gems.
function showKeys() {
  const has = (kind) => match.map.things.some((thing) => thing.kind === kind);
  element("shots").hidden = !match.map.shots;
  element("goal").hidden = !has("goal") || !has("gem");
}

function showState(text, isWrong) {
  element("state").textContent = text;
  element("state").className = isWrong ? "wrong" : "";
  element("join").textContent = match.slot === null ? "Join" : "Leave";
  element("join").disabled = token === null || match.leaves;
}

function addLine(text) {
  const line = document.createElement("li");
  line.textContent = text;
  element("events").prepend(line);
  while (element("events").children.length > MOST_LINES) element("events").lastChild.remove();
}

function showOwn() {
  const { seen } = match, isOwn = seen.slot === match.slot;
  const units = seen.origin.map((part) => (part / 256).toFixed(1));
  element("slot").textContent = isOwn ? `${seen.slot}` : `watching ${seen.slot}`;
  element("place").textContent = units.join(", ");
  element("ammo").textContent = seen.ammo;
  element("carry").textContent = seen.carry;
  element("score").textContent = seen.score;
  element("frame").textContent = seen.frame;
  element("delay").textContent = isOwn && match.delay !== null ? `${match.delay.toFixed(0)} ms` : "-";
  element("refusals").textContent = match.refusals;
}

const rows = new Map();  // of the list of players, by slot

function playerRow(slot) {
  const row = document.createElement("li"), mark = document.createElement("canvas");
  const name = document.createElement("span"), points = document.createElement("span");
  mark.width = mark.height = 12;
  mark.getContext("2d").fillStyle = playerColour(slot);
  mark.getContext("2d").fillRect(0, 0, 12, 12);
  name.className = "name";
  row.dataset.slot = slot;
  row.append(mark, name, points);
  row.addEventListener("click", () => {
    if (match.slot === null) send(0, 1, slot);
  });
  return row;
}

function showPlayers() {
  const scores = [...match.scores].sort((a, b) => b[1] - a[1] || a[0] - b[0]);
  for (const [slot, row] of rows) {
    if (!match.scores.has(slot)) {
      row.remove();
      rows.delete(slot);
    }
  }
  scores.forEach(([slot, score], i) => {
    if (!rows.has(slot)) rows.set(slot, playerRow(slot));
    const row = rows.get(slot), list = element("players");
    row.className = match.seen?.slot === slot ? "watched" : "";
    row.children[1].textContent = `player ${slot}${slot === match.slot ? " (you)" : ""}${isDown(slot) ? ", down" : ""}`;
    row.children[2].textContent = score;
    if (list.children[i] !== row) list.insertBefore(row, list.children[i] ?? null);
  });
}

// ---- All of it.

let drawing = null;

async function begin() {
  match.map = readMap(await (await fetch("map")).text());
  match.solids = fixedSolids(match.map);
  match.spawnHeight = hasStoreys(match.map) ? heightOfSpawns(match.map) : null;
  showKeys();
  drawing = new Drawing(element("map"));
  listen(element("map"));
  connect();
  let last = performance.now();
  const frame = (now) => {
    own.error = own.error.map((part) => part * Math.exp((last - now) / 80));
    last = now;
    step(performance.now());
    drawing.all(performance.now());
    requestAnimationFrame(frame);
  };
  requestAnimationFrame(frame);
  // While the page isn't shown nothing is drawn, and it still says that it is there.
  setInterval(() => step(performance.now()), 250);
}

begin();
