// What is asked of the server. A run is a stream of events; it is ended by aborting the request.
async function answered(response) {
  const found = await response.json();
  if (!response.ok) throw new Error(found.error || response.statusText);
  return found;
}

export const about = async () => answered(await fetch("about"));
export const open = async (name) => answered(await fetch(`file?name=${encodeURIComponent(name)}`));

const post = (path, value, signal) =>
  fetch(path, { method: "POST", headers: { "Content-Type": "application/json" }, body: JSON.stringify(value), signal });

export const save = async (value) => answered(await post("save", value));

// Runs a job; `onEvents` gets the events as they come, in batches. Answers the last event.
export async function run(value, onEvents, signal) {
  const response = await post("run", value, signal);
  if (!response.ok) return { kind: "end", code: null, reason: "refused", text: (await response.json()).error, refusal: null };
  const reader = response.body.getReader();
  const decoder = new TextDecoder();
  let rest = "";
  let end = { kind: "end", code: null, reason: "lost", text: "the server ended the answer; is tools/page still running?", refusal: null };
  for (;;) {
    const { done, value: bytes } = await reader.read();
    if (done) return end;
    const lines = (rest + decoder.decode(bytes, { stream: true })).split("\n");
    rest = lines.pop();
    const events = lines.map((line) => JSON.parse(line));
    const last = events.find((event) => event.kind === "end");
    if (last) end = last;
    if (events.length) onEvents(events.filter((event) => event.kind !== "end"));
  }
}
