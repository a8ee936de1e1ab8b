// A client of `/v1` that knows nothing but its document, as openapi_client.py: the same calls, and the same answers.
//
//     node openapi_client.mjs http://127.0.0.1:8444
import readline from "node:readline";

const address = process.argv[2];
const whole = await (await fetch(`${address}/v1/openapi.json`)).json();
const operations = new Map();
for (const [path, item] of Object.entries(whole.paths)) {
  for (const [method, operation] of Object.entries(item)) operations.set(operation.operationId, { method, path, operation });
}

function real(one) {
  while (one.$ref) one = one.$ref.slice(2).split("/").reduce((found, part) => found[part], whole);
  return one;
}

function kindOf(value) {
  if (value === null) return "null";
  if (Array.isArray(value)) return "array";
  return Number.isInteger(value) ? "integer" : typeof value;
}

function faultsOf(value, named, place = "") {
  const schema = real(named);
  if (schema.oneOf) return schema.oneOf.filter((one) => !faultsOf(value, one).length).length === 1 ? [] : [`${place}: of no kind`];
  const kinds = [schema.type ?? []].flat();
  if (kinds.length && !kinds.includes(kindOf(value))) return [`${place}: ${JSON.stringify(value)} is no ${kinds}`];
  const here = `${place}: ${JSON.stringify(value)}`;
  switch (kindOf(value)) {
    case "object": {
      const known = schema.properties ?? {};
      const missing = (schema.required ?? []).filter((name) => !(name in value)).map((name) => `${place}.${name}: missing`);
      const others = Object.keys(value).filter((name) => !(name in known) && schema.additionalProperties === false);
      const inside = Object.entries(value).filter(([name]) => name in known).flatMap(([name, one]) => faultsOf(one, known[name], `${place}.${name}`));
      return [...missing, ...others.map((name) => `${place}.${name}: unknown`), ...inside];
    }
    case "array":
      return value.flatMap((one) => faultsOf(one, schema.items, `${place}[]`));
    case "integer":
      return value < (schema.minimum ?? value) || value > (schema.maximum ?? value) ? [here] : [];
    case "string": {
      const fits = new RegExp(schema.pattern ?? "", "u").test(value) && (schema.enum ?? [value]).includes(value) && (schema.const ?? value) === value;
      return fits ? [] : [here];
    }
  }
  return [];
}

async function eventsOf(answer, count) {
  const found = [];
  let text = "";
  for await (const part of answer.body.pipeThrough(new TextDecoderStream())) {
    const lines = (text + part).split("\n");
    text = lines.pop();
    found.push(...lines.filter((line) => line.startsWith("data: ")).map((line) => JSON.parse(line.slice(6))));
    if (found.length >= count) return found.slice(0, count);
  }
  return found;
}

async function call(step) {
  const { method, path, operation } = operations.get(step.operation);
  const given = step.parameters ?? {};
  const headers = { Accept: step.accept ?? "*/*" };
  const isOpen = Array.isArray(operation.security) && !operation.security.length;
  if (whole.security.length && !isOpen && step.token) headers.Authorization = `Bearer ${step.token}`;
  let target = path;
  for (const one of operation.parameters ?? []) {
    if (!(one.name in given)) continue;
    if (one.in === "path") target = target.replace(`{${one.name}}`, encodeURIComponent(given[one.name]));
    else headers[one.name] = given[one.name];
  }
  const faults = [];
  const words = { method: method.toUpperCase(), headers };
  if (step.body !== undefined) {
    headers["Content-Type"] = "application/json";
    words.body = JSON.stringify(step.body);
    const isSound = !faultsOf(step.body, operation.requestBody.content["application/json"].schema).length;
    if (!isSound && !step.is_bad) faults.push("the body isn't as the document says");
  }
  const stop = new AbortController();
  const answer = await fetch(address + target, { ...words, signal: stop.signal });
  const kind = (answer.headers.get("Content-Type") ?? "").split(";")[0];
  const described = operation.responses[String(answer.status)];
  if (!described || !(kind in real(described).content)) {
    return { status: answer.status, document: null, faults: [...faults, `${answer.status} ${kind} isn't described`] };
  }
  const { schema } = real(described).content[kind];
  let document;
  if (kind === "text/event-stream") {
    document = await eventsOf(answer, step.events);
    stop.abort();
    faults.push(...document.flatMap((one) => faultsOf(one, schema)));
  } else if (kind === "text/csv") {
    document = await answer.text();
  } else {
    document = await answer.json();
    faults.push(...faultsOf(document, schema));
  }
  return { status: answer.status, document, faults };
}

for await (const line of readline.createInterface({ input: process.stdin })) console.log(JSON.stringify(await call(JSON.parse(line))));
