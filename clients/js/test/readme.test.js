// The example of README.md, against a server of its own.
import assert from "node:assert/strict";
import { execFile } from "node:child_process";
import { mkdtemp, readFile, rm, writeFile } from "node:fs/promises";
import { tmpdir } from "node:os";
import { test } from "node:test";
import { promisify } from "node:util";
import { lacks, serve } from "./serving.js";

test("the example of the page prints what the page says", { skip: lacks("serve") }, async (context) => {
  const port = await serve(context, 2);
  const page = await readFile(new URL("../README.md", import.meta.url), "utf8");
  const [, example] = /```js\n([\s\S]*?)```/.exec(page) ?? [];
  const folder = await mkdtemp(`${tmpdir()}/foqradesh-`);
  context.after(() => rm(folder, { recursive: true }));
  const module = new URL("../foqradesh.js", import.meta.url).href;
  await writeFile(`${folder}/example.mjs`, example.replace('"foqradesh"', JSON.stringify(module)).replace("42064", String(port + 64)));
  const { stdout } = await promisify(execFile)(process.execPath, [`${folder}/example.mjs`], { timeout: 30_000 });
  const [, said] = /It prints `(.*)`/.exec(page) ?? [];
  assert.equal(stdout.trim(), said);
});
