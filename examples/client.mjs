#!/usr/bin/env node
// Asks `nagsched live --json`, and pairs each answer with its request by an id.
//
//     node examples/client.mjs [PROGRAM]
//
// It takes every check that is due, and reports the code 0 for each.
import { spawn } from "node:child_process";
import { createInterface } from "node:readline";

const live = spawn(process.argv[2] ?? "nagsched", ["live", "--json"], { stdio: ["pipe", "pipe", "inherit"] });
const waiting = new Map();
let requests = 0;

createInterface({ input: live.stdout }).on("line", (line) => {
  const answer = JSON.parse(line);
  if (!waiting.has(answer.id)) throw new Error(answer.explanation);
  waiting.get(answer.id)(answer);
  waiting.delete(answer.id);
});

function ask(...request) {
  const id = ++requests;
  live.stdin.write(JSON.stringify([...request, { id }]) + "\n");
  return new Promise((resolve) => waiting.set(id, resolve));
}

const options = { host_inter_check_delay_method: "n" };
live.stdin.write(JSON.stringify({ options, hosts: [{ name: "a", max_check_attempts: 3 }, { name: "b", max_check_attempts: 3 }] }) + "\n");
for (;;) {
  const taken = await ask("take", 0);
  if (taken.answer !== "taken") break;
  const standing = await ask("report", taken.name, taken.run, 0);
  console.log(standing.name, standing.state, standing.next_check);
}
live.stdin.end();
