// A gateway that runs, with a journal in a folder of its own. A token is the name of its role and `-demo`.
import {spawn, spawnSync} from "node:child_process";
import {createHash} from "node:crypto";
import fs from "node:fs";
import net from "node:net";
import os from "node:os";
import path from "node:path";
import {fileURLToPath} from "node:url";

const GATEWAY = fileURLToPath(new URL("../../test/gateway", import.meta.url));
/** Whether it is built. */
export const IS_BUILT = spawnSync(GATEWAY, ["--which"], {encoding: "utf8"}).stdout.trim() !== "";
const PATIENCE = 600_000; // a slow machine fails no test

// A port on which nobody listens, below those that the system gives to clients.
const freePort = () => new Promise((done) => {
  const low = Number(fs.readFileSync("/proc/sys/net/ipv4/ip_local_port_range", "utf8").split("\t")[0]);
  const port = 10_000 + Math.floor(Math.random() * ((low > 12_000 ? low : 60_000) - 10_000));
  const probe = net.createServer().on("error", () => done(freePort())).listen(port, "127.0.0.1", () => probe.close(() => done(port)));
});

/** Waits until it holds. */
export async function until(holds, words, patience = PATIENCE) {
  const end = Date.now() + patience;
  while (!await holds()) {
    if (Date.now() > end) throw new Error(`${words ?? holds} did not come`);
    await new Promise((done) => setTimeout(done, 10));
  }
}

export class Gateway {
  folder = fs.mkdtempSync(path.join(os.tmpdir(), "gateway."));

  static async started(t) {
    const gateway = new Gateway();
    gateway.know("admin", "ann", "mia");
    fs.writeFileSync(gateway.file("journal.jsonl"), "");
    gateway.port = await freePort();
    gateway.url = `ws://127.0.0.1:${gateway.port}/live`;
    t.after(async () => {
      await gateway.kill();
      fs.rmSync(gateway.folder, {recursive: true, force: true});
    });
    await gateway.start();
    return gateway;
  }

  file(name) {
    return path.join(this.folder, name);
  }

  /** The tokens of these roles are known from now on. */
  know(...roles) {
    const lines = roles.map((role) => `"${createHash("sha256").update(`${role}-demo`).digest("hex")}" = "${role}"\n`);
    fs.writeFileSync(this.file("tokens.new"), `[tokens]\n${lines.join("")}`);
    fs.renameSync(this.file("tokens.new"), this.file("tokens.toml"));
  }

  async start() {
    const words = ["--journal", this.file("journal.jsonl"), "--tokens", this.file("tokens.toml"), "--port", String(this.port)];
    this.process = spawn(GATEWAY, words, {stdio: ["ignore", "ignore", fs.openSync(this.file("log"), "a")]});
    this.ended = new Promise((done) => this.process.on("exit", done));
    await until(() => {
      if (this.process.exitCode !== null) throw new Error(fs.readFileSync(this.file("log"), "utf8"));
      return fetch(`http://127.0.0.1:${this.port}/readyz`).then((it) => it.ok, () => false);
    }, "the gateway");
  }

  signal(name) {
    this.process.kill(name);
  }

  async kill() {
    this.signal("SIGCONT");
    this.signal("SIGKILL");
    await this.ended;
  }
}
