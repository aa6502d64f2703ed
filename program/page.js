'use strict';
const $ = id => document.getElementById(id);
const data = JSON.parse($('data').textContent);
const width = data.width / 2, height = data.height / 2, half = data.side / 2; // of a plane; tiles begin every half side
const NEAR = '#4db5ff', APART = '#b9a8ff', LIFTED = '#ff8c1a', LISTED = 200;

// words of 12 bits, two digits of base 64 each
const digit = new Uint8Array(128);
[...'ABCDEFGHIJKLMNOPQRSTUVWXYZabcdefghijklmnopqrstuvwxyz0123456789+/'].forEach((c, i) => digit[c.charCodeAt(0)] = i);
function words(text) {
  const out = new Uint16Array(text.length / 2);
  for (let i = 0; i < out.length; i++) out[i] = digit[text.charCodeAt(2 * i)] << 6 | digit[text.charCodeAt(2 * i + 1)];
  return out;
}
const pictures = { reference: words(data.picture), merged: data.merged && words(data.merged) };
data.picture = data.merged = '';

// a frame's tiles, taken apart when they are first looked at
function tiles(frame) {
  if (frame.words) {
    frame.tile = words(frame.words);
    frame.words = '';
    frame.isLifted = new Set(frame.lifted);
  }
  return frame.tile;
}
function tileOf(frame, t) {
  const w = tiles(frame), at = 6 * t;
  const own = w[at + 2] * 4096 + w[at + 3], common = w[at + 4] * 4096 + w[at + 5];
  const down = w[at] - 2048, right = w[at + 1] - 2048;
  const away = Math.max(Math.abs(down - frame.common[0]), Math.abs(right - frame.common[1]));
  return { down, right, own, common, ratio: own ? common / own : common ? Infinity : 1, apart: away > data.apart, lifted: frame.isLifted.has(t) };
}
const ratioText = ratio => Number.isFinite(ratio) ? ratio.toFixed(2) : '\u221e';
const grouped = n => n.toLocaleString('en').replace(/,/g, '\u202f');

// what is shown
const state = { frame: 0, picture: 'reference', x: width / 2, y: height / 2, scale: 1, pointed: null, kept: null };
const canvas = $('canvas'), context = canvas.getContext('2d');
const drawn = document.createElement('canvas');
drawn.width = width;
drawn.height = height;

// between the darkest and the brightest half of a hundredth of the reference; all pictures alike
function range() {
  const seen = new Uint32Array(4096);
  for (const word of pictures.reference) seen[word]++;
  const at = part => { let sum = 0, i = 0; while (i < 4095 && (sum += seen[i]) < part * pictures.reference.length) i++; return i; };
  return [at(0.005), Math.max(at(0.995), at(0.005) + 16)];
}
const [low, high] = range();

function paint() {
  const image = new ImageData(width, height), pixels = new Uint32Array(image.data.buffer);
  const light = 2 ** $('light').value, grey = new Uint32Array(4096);
  for (let i = 0; i < 4096; i++) {
    const part = Math.min(1, Math.max(0, light * (i - low) / (high - low))) ** 0.7;
    grey[i] = 0xff000000 | Math.round(255 * part) * 0x10101;
  }
  if (state.picture === 'difference')
    for (let i = 0; i < pixels.length; i++) {
      const off = Math.round(128 + 8 * light * (pictures.merged[i] - pictures.reference[i]));
      pixels[i] = 0xff000000 | Math.min(255, Math.max(0, off)) * 0x10101;
    }
  else
    pictures[state.picture].forEach((word, i) => pixels[i] = grey[word]);
  drawn.getContext('2d').putImageData(image, 0, 0);
  draw();
}

const toScreen = (x, y) => [canvas.width / 2 + (x - state.x) * state.scale, canvas.height / 2 + (y - state.y) * state.scale];
const toPlane = (x, y) => [state.x + (x - canvas.width / 2) / state.scale, state.y + (y - canvas.height / 2) / state.scale];
const ratio = () => window.devicePixelRatio || 1;

// rows and columns of tiles in sight, at most one for each `gap` pixels
function* inSight(gap) {
  const step = Math.max(1, Math.ceil(gap * ratio() / (half * state.scale)));
  const [left, top] = toPlane(0, 0), [right, bottom] = toPlane(canvas.width, canvas.height);
  const from = v => Math.max(0, Math.floor(v / half / step) * step), to = (v, n) => Math.min(n - 1, Math.ceil(v / half));
  for (let a = from(top); a <= to(bottom, data.tile_rows); a += step)
    for (let b = from(left); b <= to(right, data.tile_columns); b += step) yield [a, b, step];
}

function drawLifted(frame) {
  const side = half * state.scale;
  context.fillStyle = LIFTED + (side > 20 * ratio() ? '2e' : '59');
  context.strokeStyle = LIFTED;
  context.lineWidth = ratio();
  tiles(frame);
  for (const t of frame.lifted) {
    const [x, y] = toScreen(half * (t % data.tile_columns) - half / 2, half * Math.floor(t / data.tile_columns) - half / 2);
    context.fillRect(x, y, side, side);
    if (side > 6) context.strokeRect(x, y, side, side);
  }
}

// lines from the tile's middle; a dot is where each begins
function drawVectors(frame) {
  const kind = $('vectors').value, times = $('length').value * state.scale; // longer where not all are shown
  if (kind === 'none') return;
  const paths = { [NEAR]: new Path2D(), [APART]: new Path2D(), [LIFTED]: new Path2D() }, dot = 1.6 * ratio();
  for (const [a, b, step] of inSight(18)) {
    const tile = tileOf(frame, a * data.tile_columns + b), [x, y] = toScreen(half * b, half * a);
    const down = tile.down - (kind === 'relative' ? frame.common[0] : 0), right = tile.right - (kind === 'relative' ? frame.common[1] : 0);
    const cut = Math.min(times * step, 1.2 * step * half * state.scale / (Math.hypot(down, right) || 1));
    const path = paths[tile.lifted ? LIFTED : tile.apart ? APART : NEAR];
    path.moveTo(x, y);
    path.lineTo(x + cut * right, y + cut * down);
    path.rect(x - dot / 2, y - dot / 2, dot, dot);
  }
  for (const [width, colours] of [[2.8, () => '#0009'], [1.4, colour => colour]])
    for (const colour of [NEAR, APART, LIFTED]) {
      context.lineWidth = width * ratio();
      context.strokeStyle = colours(colour);
      context.stroke(paths[colour]);
    }
}

// the whole tile at the pointer, and where the shown frame has it
function drawPointed(frame) {
  const t = state.kept ?? state.pointed;
  if (t === null) return;
  const [x, y] = toScreen(half * (t % data.tile_columns) - half, half * Math.floor(t / data.tile_columns) - half), side = data.side * state.scale;
  context.lineWidth = 2 * ratio();
  context.strokeStyle = '#fff';
  context.strokeRect(x, y, side, side);
  if (!frame) return;
  const { down, right, lifted } = tileOf(frame, t);
  context.setLineDash([6 * ratio(), 4 * ratio()]);
  context.strokeStyle = lifted ? LIFTED : NEAR;
  context.strokeRect(x + right * state.scale, y + down * state.scale, side, side);
  context.setLineDash([]);
}

// the frame stays in sight: where it is larger than the canvas it fills it
function held() {
  const side = (at, size, seen) => size <= seen ? size / 2 : Math.min(size - seen / 2, Math.max(seen / 2, at));
  state.x = side(state.x, width, canvas.width / state.scale);
  state.y = side(state.y, height, canvas.height / state.scale);
}

function draw() {
  held();
  const frame = data.frames[state.frame], [x, y] = toScreen(0, 0);
  context.fillStyle = '#222';
  context.fillRect(0, 0, canvas.width, canvas.height);
  context.imageSmoothingEnabled = state.scale < 1;
  context.imageSmoothingQuality = 'high';
  context.drawImage(drawn, x, y, width * state.scale, height * state.scale);
  if (frame) {
    drawLifted(frame);
    drawVectors(frame);
  }
  drawPointed(frame);
}

// size and place
function fit() {
  const box = canvas.getBoundingClientRect();
  canvas.width = Math.max(1, Math.round(box.width * ratio()));
  canvas.height = Math.max(1, Math.round(box.height * ratio()));
}
function whole() {
  state.x = width / 2;
  state.y = height / 2;
  state.scale = Math.min(canvas.width / width, canvas.height / height);
  draw();
}
function zoom(times, x = canvas.width / 2, y = canvas.height / 2) {
  const [px, py] = toPlane(x, y), least = Math.min(canvas.width / width, canvas.height / height) / 2;
  state.scale = Math.min(64, Math.max(least, state.scale * times));
  state.x = px - (x - canvas.width / 2) / state.scale;
  state.y = py - (y - canvas.height / 2) / state.scale;
  draw();
}

// the tables
function row(cells, at) {
  const tr = document.createElement('tr');
  if (at !== undefined) {
    tr.dataset.at = at;
    tr.tabIndex = 0;
  }
  for (const [text, kind, title] of cells.map(cell => [].concat(cell))) {
    const td = tr.insertCell();
    td.textContent = text;
    if (kind) td.className = kind;
    if (title) td.title = title;
  }
  return tr;
}
function listFrames() {
  const body = $('frames').tBodies[0], sum = key => data.frames.reduce((all, f) => all + key(f), 0);
  data.frames.forEach((f, i) => body.append(row([[f.frame, '', data.files[f.frame] || data.files[0]], f.common.join(', '), grouped(f.apart),
    [grouped(f.lifted.length), f.lifted.length ? 'bad' : ''], grouped(f.residual)], i)));
  $('frames').tFoot.append(row(['all', `of ${grouped(data.tile_rows * data.tile_columns)} tiles`, grouped(sum(f => f.apart)), grouped(sum(f => f.lifted.length)),
    grouped(sum(f => f.residual))]));
}
function listLifted() {
  const frame = data.frames[state.frame], body = $('lifted').tBodies[0], most = frame ? frame.lifted.length : 0;
  body.replaceChildren();
  $('none').hidden = most > 0;
  $('lifted').hidden = most === 0;
  $('more').hidden = most <= LISTED;
  $('more').textContent = `The worst ${LISTED} of ${grouped(most)}.`;
  if (!frame) return;
  $('which').textContent = frame.frame;
  const worst = frame.lifted.map(t => [t, tileOf(frame, t)]).sort((a, b) => b[1].ratio - a[1].ratio).slice(0, LISTED);
  for (const [t, tile] of worst)
    body.append(row([Math.floor(t / data.tile_columns), t % data.tile_columns, tile.down, tile.right, ratioText(tile.ratio)], t));
}
function choose(frame) {
  state.frame = frame;
  for (const tr of $('frames').tBodies[0].rows) tr.classList.toggle('on', +tr.dataset.at === frame);
  listLifted();
  draw();
}
function tellTile() {
  const t = state.kept ?? state.pointed, body = $('tile').tBodies[0];
  $('tile').hidden = t === null;
  if (t === null) {
    $('where').textContent = 'Point at the picture';
    $('place').textContent = 'A click keeps the tile; a second one lets it go.';
    return;
  }
  const a = Math.floor(t / data.tile_columns), b = t % data.tile_columns, x = Math.min(width - 1, half * b), y = Math.min(height - 1, half * a);
  const [px, py] = state.at || [x, y], here = py * width + px;
  $('where').textContent = `Tile row ${a}, column ${b}${state.kept === null ? '' : ' (kept)'}`;
  $('place').textContent = `At sample ${2 * py} down, ${2 * px} right: reference ${pictures.reference[here]}` + (pictures.merged ? `, merged ${pictures.merged[here]}` : '')
    + ' (means of four samples)';
  body.replaceChildren(...data.frames.map(frame => {
    const tile = tileOf(frame, t);
    return row([frame.frame, tile.down, tile.right, grouped(tile.own), grouped(tile.common), ratioText(tile.ratio), [tile.lifted ? 'lifted' : tile.apart ? 'apart' : '', tile.lifted ? 'bad' : '']]);
  }));
}

// what people do
function tileAt(event) {
  const box = canvas.getBoundingClientRect(), [x, y] = toPlane((event.clientX - box.left) * ratio(), (event.clientY - box.top) * ratio());
  if (x < 0 || y < 0 || x >= width || y >= height) return null;
  state.at = [Math.floor(x), Math.floor(y)];
  return Math.round(y / half) * data.tile_columns + Math.round(x / half);
}
let drag = null;
canvas.onpointerdown = event => {
  canvas.setPointerCapture(event.pointerId);
  drag = { x: event.clientX, y: event.clientY, moved: false };
};
canvas.onpointermove = event => {
  if (drag && (drag.moved || Math.hypot(event.clientX - drag.x, event.clientY - drag.y) > 4)) {
    state.x -= (event.clientX - drag.x) * ratio() / state.scale;
    state.y -= (event.clientY - drag.y) * ratio() / state.scale;
    drag = { x: event.clientX, y: event.clientY, moved: true };
  } else if (state.kept === null) {
    state.pointed = tileAt(event);
    tellTile();
  }
  draw();
};
canvas.onpointerup = event => {
  if (drag && !drag.moved) {
    state.kept = state.kept === null ? tileAt(event) : null;
    tellTile();
    draw();
  }
  drag = null;
};
canvas.onpointerleave = () => {
  state.pointed = null;
  tellTile();
  draw();
};
canvas.addEventListener('wheel', event => {
  event.preventDefault();
  const box = canvas.getBoundingClientRect();
  zoom(2 ** (-event.deltaY / 300), (event.clientX - box.left) * ratio(), (event.clientY - box.top) * ratio());
}, { passive: false });
canvas.onkeydown = event => {
  const move = { ArrowLeft: [-1, 0], ArrowRight: [1, 0], ArrowUp: [0, -1], ArrowDown: [0, 1] }[event.key];
  if (move) {
    state.x += move[0] * canvas.width / 8 / state.scale;
    state.y += move[1] * canvas.height / 8 / state.scale;
    draw();
    event.preventDefault();
  } else if (event.key === '+') zoom(1.5);
  else if (event.key === '-') zoom(1 / 1.5);
  else if (event.key === '0') whole();
};
$('closer').onclick = () => zoom(1.5);
$('farther').onclick = () => zoom(1 / 1.5);
$('whole').onclick = whole;
$('vectors').onchange = $('length').oninput = draw;
$('light').oninput = paint;
$('pictures').onclick = event => {
  const chosen = event.target.dataset.picture;
  if (!chosen) return;
  state.picture = chosen;
  for (const button of $('pictures').children) button.setAttribute('aria-pressed', button === event.target);
  paint();
};
const onRow = (table, go) => {
  const act = event => {
    const tr = event.target.closest('tr[data-at]');
    if (tr && (event.type === 'click' || event.key === 'Enter' || event.key === ' ')) {
      event.preventDefault();
      go(+tr.dataset.at);
    }
  };
  $(table).onclick = $(table).onkeydown = act;
};
onRow('frames', choose);
onRow('lifted', t => {
  state.kept = t;
  state.at = null;
  state.x = half * (t % data.tile_columns);
  state.y = half * Math.floor(t / data.tile_columns);
  state.scale = Math.max(state.scale, canvas.height / (8 * data.side));
  tellTile();
  draw();
});
addEventListener('resize', () => {
  fit();
  draw();
});

$('title').textContent = `${data.count} frames of ${data.width} by ${data.height}, ${pictures.merged ? 'merged' : 'aligned'} on frame ${data.reference}`;
const rounded = value => value === null ? '?' : +value.toPrecision(6);
$('facts').textContent = [`noise ${rounded(data.shot)} x + ${rounded(data.read)}${data.iso ? ` at ISO 100, taken at ${data.iso}` : ''}`, `strength ${data.strength}`,
  `side ${data.side}`, `spatial ${data.spatial}`, `black ${data.black.join(' ')}`, `stacker ${data.stacker}`].join(' \u00b7 ');
$('outside').hidden = !data.outside_the_proofs;
$('outside').textContent = `Outside the proofs: ${data.outside_the_proofs}.`;
if (!pictures.merged) $('pictures').querySelectorAll('[data-picture]:not([data-picture=reference])').forEach(button => button.disabled = true);
listFrames();
fit();
whole();
paint();
choose(data.frames.reduce((best, f, i) => f.lifted.length > data.frames[best].lifted.length ? i : best, 0));
tellTile();
