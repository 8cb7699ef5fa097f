// Shows a moment, and moves through the run by buttons, keys, the slider, the lists and the address.
const find = (query) => document.querySelector(query);
const slider = find("#slider"), last = moments.length - 1;
let playing = null, addressing = null;

function draw() {
  const section = find("#picture"), padding = 2 * parseFloat(getComputedStyle(section).paddingLeft);
  const { html, said } = picture(Math.max(240, Math.floor(section.clientWidth - padding)));
  section.innerHTML = html;
  find("#said div").innerHTML = said.map((part) => `<p>${escaped(part)}</p>`).join("");
}
function showWords() {
  if (find("#words").open) find("#words div").innerHTML = wordsPanel();
}
function show() {
  find("#now").innerHTML = sentence();
  draw();
  find("#tick div").innerHTML = tickPanel();
  find("#tasks div").innerHTML = taskPanel();
  showWords();
  markLists(find("#lines ol"), find("#answers ol"));
  slider.value = at;
  slider.setAttribute("aria-valuetext", `moment ${at} of ${last}, tick ${tickOf[at]}`);
  const enable = (names, is) => names.forEach((name) => { find(`[data-do=${name}]`).disabled = !is(name); });
  enable(["first", "back"], () => at > 0);
  enable(["on", "last"], () => at < last);
  enable(Object.keys(KINDS), (name) => next(name, 1) !== at);
}
function go(to) {
  const target = Math.max(0, Math.min(last, to));
  while (at < target) on();
  while (at > target) back();
  show();
  const extra = moments[at].kind === "tick" ? 0 : at - tickMoment(tickOf[at]);
  const address = `#tick=${tickOf[at]}${extra ? `+${extra}` : ""}`;
  find("#now").dataset.address = address;
  // Browsers refuse an address that changes too often.
  clearTimeout(addressing);
  addressing = setTimeout(() => history.replaceState(null, "", address), 200);
}
// The moment of a tick, of the last one if there are not so many; of tick 0 the first.
const tickMoment = (tick) => tickOf.indexOf(Math.min(tick, tickOf[last]));
function goToAddress() {
  const asked = /^#tick=(\d+)(?:\+(\d+))?$/.exec(location.hash);
  go(asked ? tickMoment(Number(asked[1])) + Number(asked[2] || 0) : 0);
}

// What can be jumped to: the next such moment in a direction, or the present one.
const KINDS = { answer: isAnswer, lost: ({ lost }) => lost, took: ({ took }) => took !== undefined };
function next(kind, direction) {
  for (let i = at + direction; i > 0 && i <= last; i += direction) if (KINDS[kind](moments[i])) return i;
  return at;
}
const DO = { first: () => 0, back: () => at - 1, on: () => at + 1, last: () => last };
for (const kind of Object.keys(KINDS)) DO[kind] = (direction) => next(kind, direction);
const KEYS = { Home: "first", ArrowLeft: "back", " ": "play", ArrowRight: "on", End: "last" };
Object.assign(KEYS, { a: "answer", s: "lost", t: "took" });

function stop() {
  clearTimeout(playing);
  playing = null;
  find("[data-do=play]").textContent = "Play";
}
function play() {
  const wait = () => { playing = setTimeout(turn, Number(find("#speed").value)); };
  const turn = () => {
    go(at + 1);
    if (at < last) wait();
    else stop();
  };
  if (at === last) go(0);
  find("[data-do=play]").textContent = "Pause";
  wait();
}
function act(name, direction = 1) {
  const wasPlaying = playing !== null;
  stop();
  if (name !== "play") go(DO[name](direction));
  else if (!wasPlaying) play();
}

document.addEventListener("click", ({ target }) => {
  const button = target.closest("button");
  if (button?.dataset.do) act(button.dataset.do);
  if (button?.dataset.go) {
    stop();
    go(Number(button.dataset.go));
  }
});
document.addEventListener("keydown", (event) => {
  const { key, target: { tagName } } = event, name = KEYS[key.length === 1 ? key.toLowerCase() : key];
  if (!name || event.ctrlKey || event.altKey || event.metaKey) return;
  // A choice, the slider and a button have keys of their own.
  if (tagName === "SELECT" || (tagName === "INPUT" && key.length > 1)) return;
  if ((tagName === "BUTTON" || tagName === "SUMMARY") && key === " ") return;
  event.preventDefault();
  act(name, event.shiftKey ? -1 : 1);
});
slider.addEventListener("input", () => {
  stop();
  go(Number(slider.value));
});
find("#words").addEventListener("toggle", showWords);
window.addEventListener("hashchange", goToAddress);
window.addEventListener("resize", () => {
  tallest.clear();
  draw();
});

const counted = (count, name) => `${count} ${name}${count === 1 ? "" : "s"}`;
const ticks = (count) => counted(count, "tick"), lines = (count) => counted(count, "line"), { cut } = run;
find("#sizes").textContent = `${ticks(tickOf[last])} from ${lines(run.lines.length)}, made by the proved library.`;
find("#cut").hidden = !cut.ticks && !cut.lines;
find("#cut").textContent = `The run is longer than a page holds. Cut: ${ticks(cut.ticks)} after the last one shown, `
  + `and ${lines(cut.lines)} of which nothing is shown.`;
find("#lines ol").innerHTML = linesList();
find("#answers ol").innerHTML = answersList();
slider.max = last;
goToAddress();
