// A chat in a room, as a guest by the door (gb_web) of the member's node. The page's address has the room; the token is pasted once. A message's payload is
// a JSON text {name, time, kind, text} with kind "said", "joined" or "left": a log has no times and no names of its own.
import { DeniedError, Room, Session, Tokens, UnansweredError, UnknownOutcomeError, textOf } from "./foqradesh.js";

const $ = (id) => document.getElementById(id);
const words = new URLSearchParams(location.hash.slice(1));
const number = (name) => Number(words.get(name));
const own = { name: "", node: number("node") };
const waits = new Set(); // what was said here and is not in the log yet: { text, state, named }
const delivered = new Set(); // which of the own messages are in the log
const people = new Map(); // node and name -> whether it is there
let room;

const tell = (text) => { if ($("state").textContent !== text) $("state").textContent = text; };
const pause = () => new Promise((done) => setTimeout(done, 1000));
const nameOf = ({ generation, number }) => `${generation}.${number}`;

function line(...parts) {
  const made = document.createElement("li");
  made.append(...parts.map(([kind, text]) => Object.assign(document.createElement("span"), { className: kind, textContent: text })));
  return made;
}

function show() {
  for (const one of waits) if (one.named && delivered.has(nameOf(one.named))) waits.delete(one);
  $("waits").replaceChildren(...Array.from(waits, ({ text, state }) => line(["what", `${text} (${state})`])));
  $("there").replaceChildren(...Array.from(people, ([who, isThere]) => line(["who", `${who}: ${isThere ? "there" : "left"}`])));
}

// What an entry says. An entry that is none of this page's is shown as it is.
function messageOf(payload) {
  try {
    const message = JSON.parse(textOf(payload));
    if (typeof message.name === "string" && typeof message.text === "string" && ["said", "joined", "left"].includes(message.kind)) return message;
  } catch {}
  return { name: "somebody", time: Date.now(), kind: "said", text: textOf(payload) };
}

function take(entry) {
  const { name, time, kind, text } = messageOf(entry.payload);
  if (entry.origin === own.node) delivered.add(nameOf(entry));
  people.set(`${name}, at node ${entry.origin}`, kind !== "left");
  const when = ` (node ${entry.origin}, message ${nameOf(entry)}, ${new Date(time).toLocaleTimeString()})`;
  $("said").append(line(["who", name], kind === "said" ? ["what", `: ${text}`] : ["note", ` ${kind}`], ["when", when]));
  $("said").scrollTop = $("said").scrollHeight;
  show();
}

// Takes what comes into the room, for as long as the page is open.
async function follow() {
  for (;;) {
    try {
      for await (const entry of room.follow()) take(entry);
    } catch (error) {
      tell(error instanceof DeniedError ? "The token is not that of the member at this node." : `Waiting: ${error.message}`);
      if (error instanceof DeniedError) return;
    }
    await pause();
  }
}

// Says a message, and again where its reply was lost: with its number it is said once.
async function say(kind, text) {
  const one = { text: kind === "said" ? text : kind, state: "is sent", named: null };
  const payload = JSON.stringify({ name: own.name, time: Date.now(), kind, text });
  waits.add(one);
  for (let repeat; one.named === null; show()) {
    try {
      one.named = await room.say(payload, { repeat });
      one.state = "was said; waits until all members have it";
    } catch (error) {
      const isLost = error instanceof UnansweredError && !(error instanceof UnknownOutcomeError);
      one.state = isLost ? "waits for a connection" : `not known to be said: ${error.message}`;
      if (!isLost) return show();
      if (error.generation !== null) repeat = { generation: error.generation, number: error.said };
      show();
      await pause();
    }
  }
}

// Shows whether there is a connection.
function connected(isOpen) {
  tell(isOpen ? `Joined as ${own.name}.` : "No connection to the node; trying again.");
  for (const one of waits) if (one.named === null) one.state = isOpen ? "is sent" : "waits for a connection";
  show();
}

$("join").addEventListener("submit", (event) => {
  event.preventDefault();
  own.name = $("name").value.trim();
  const url = new URL("session", location.href.replace(/^http/, "ws"));
  url.hash = "";
  const session = new Session({ url: url.href }, new Tokens({ member: $("token").value.trim(), node: own.node }), { seconds: 10, onConnection: connected });
  const spec = { kind: words.get("kind"), members: words.get("members").split(",").map(Number), messages: number("messages"), totalBytes: number("bytes"), window: number("window") };
  room = new Room({ [own.node]: session }, number("tenant"), number("room"), spec, { node: own.node, isGuest: true });
  $("token").value = "";
  [$("join").hidden, $("room").hidden] = [true, false];
  $("text").focus();
  follow();
  say("joined", "");
});

$("say").addEventListener("submit", (event) => {
  event.preventDefault();
  say("said", $("text").value);
  $("text").value = "";
});

addEventListener("pagehide", () => room && say("left", ""));
