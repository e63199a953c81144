// The module in a browser, headless, over 127.0.0.1: what a page gets from it is what Node gets. browser.mjs MODULE IMAGE. Says so where no browser is there.
import { spawn, spawnSync } from "node:child_process";
import fs from "node:fs";
import http from "node:http";
import os from "node:os";
import path from "node:path";
import { load } from "../yellowadze1541.mjs";

const [file, name] = process.argv.slice(2);
const SECONDS = 60;
const browser = ["chromium", "chromium-browser", "google-chrome"].find((it) => spawnSync("sh", ["-c", `command -v ${it}`]).status === 0);
if (!browser) {
  console.log("browser: no chromium here, so the module isn't tried in one");
  process.exit();
}

// What both do with the module: all that comes back, as a text.
const uses = (y1541, image) => {
  const said = [y1541.version(), y1541.list(image), y1541.file(image, "HELLO")];
  const next = y1541.put(image, "NEW,P,W", Uint8Array.of(1, 8, 7));
  y1541.check(next);
  said.push(next, y1541.list(next), y1541.convert(next).image);
  const drive = y1541.open(next);
  drive.lines(1000, true, false, false);
  said.push(JSON.stringify(drive.due(5000)), drive.nextDue(), drive.image());
  return said.join(" ");
};

const PAGE = `<!doctype html><title>1541</title><script type="module">
import { load } from "./yellowadze1541.mjs";
const uses = ${uses};
const say = (text) => fetch("/said", { method: "POST", body: text });
try {
  const begun = performance.now();
  const y1541 = await load(fetch("./yellowadze1541.wasm"));
  const loaded = performance.now(), image = new Uint8Array(await (await fetch("./image")).arrayBuffer());
  const text = uses(y1541, image);
  await say(Math.round(loaded - begun) + " ms to load\\n" + text);
} catch (fault) {
  await say("fault\\n" + fault);
}
</script>`;
const FILES = {
  "/": ["text/html", Buffer.from(PAGE)],
  "/yellowadze1541.mjs": ["text/javascript", fs.readFileSync(new URL("../yellowadze1541.mjs", import.meta.url))],
  "/yellowadze1541.wasm": ["application/wasm", fs.readFileSync(file)],
  "/image": ["application/octet-stream", fs.readFileSync(name)],
};

const wanted = uses(await load(fs.readFileSync(file)), new Uint8Array(fs.readFileSync(name)));
const profile = fs.mkdtempSync(path.join(os.tmpdir(), "browser-"));
let child;
const end = (said, status) => {
  console.log(`browser: ${said}`);
  child.once("exit", () => {
    try {
      fs.rmSync(profile, { recursive: true, force: true, maxRetries: 20 });
    } catch (error) {
      // (a process of the browser still writes there: what is left is no fault of the module)
      console.log(`browser: ${profile} is left: ${error.code}`);
    }
    process.exit(status);
  });
  child.kill();
};
const server = http.createServer((request, response) => {
  const [type, bytes] = FILES[request.url] ?? ["text/plain", Buffer.alloc(0)];
  const body = [];
  request.on("data", (it) => body.push(it));
  request.on("end", () => {
    response.writeHead(200, { "content-type": type }).end(bytes);
    if (request.url !== "/said") return;
    const [first, got] = Buffer.concat(body).toString().split("\n");
    if (got === wanted) end(`${browser} gets what Node gets, ${first}`, 0);
    else end(`${browser} gets something else: ${first} ${got.slice(0, 300)}`, 1);
  });
});
server.listen(0, "127.0.0.1", () => {
  const words = ["--headless", "--disable-gpu", "--no-sandbox", `--user-data-dir=${profile}`, `http://127.0.0.1:${server.address().port}/`];
  child = spawn(browser, words, { stdio: "ignore" });
  setTimeout(() => end(`${browser} said nothing in ${SECONDS} seconds`, 1), SECONDS * 1000).unref();
});
