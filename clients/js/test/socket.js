// A WebSocket over node:http for tests (RFC 6455), as Node has one of its own from 22 on alone.
import {randomBytes} from "node:crypto";
import http from "node:http";

export class Socket {
  #socket = null;
  #input = Buffer.alloc(0);
  #isEnded = false;

  constructor(url) {
    const key = randomBytes(16).toString("base64");
    const headers = {Connection: "Upgrade", Upgrade: "websocket", "Sec-WebSocket-Version": "13", "Sec-WebSocket-Key": key};
    const request = http.get(url.replace(/^ws/, "http"), {headers});
    request.on("error", () => this.#end(1006, ""));
    request.on("response", () => this.#end(1006, ""));
    request.on("upgrade", (_, socket, head) => {
      this.#socket = socket;
      socket.on("data", (data) => this.#take(data));
      socket.on("error", () => {});
      socket.on("close", () => this.#end(1006, ""));
      this.onopen();
      if (head.length) this.#take(head);
    });
  }

  send(data) {
    this.#frame(1, Buffer.from(data));
  }

  close() {
    this.#socket?.destroy();
  }

  // A client's frame: with a mask, here of zeros.
  #frame(kind, payload) {
    const size = payload.length;
    const head = Buffer.alloc(size < 126 ? 6 : size < 65_536 ? 8 : 14);
    head[0] = 0x80 | kind;
    head[1] = 0x80 | (size < 126 ? size : size < 65_536 ? 126 : 127);
    if (head.length === 8) head.writeUInt16BE(size, 2);
    if (head.length === 14) head.writeBigUInt64BE(BigInt(size), 2);
    this.#socket.write(Buffer.concat([head, payload]));
  }

  #take(data) {
    this.#input = Buffer.concat([this.#input, data]);
    for (;;) {
      const input = this.#input;
      if (input.length < 2) return;
      const short = input[1], from = short < 126 ? 2 : short === 126 ? 4 : 10;
      if (input.length < from) return;
      const size = short < 126 ? short : short === 126 ? input.readUInt16BE(2) : Number(input.readBigUInt64BE(2));
      if (input.length < from + size) return;
      const [kind, payload] = [input[0] & 15, input.subarray(from, from + size)];
      this.#input = input.subarray(from + size);
      if (kind === 1) this.onmessage({data: payload.toString()});
      if (kind === 8) this.#end(size < 2 ? 1005 : payload.readUInt16BE(0), payload.subarray(2).toString());
      if (kind === 9) this.#frame(10, payload);
    }
  }

  #end(code, reason) {
    if (this.#isEnded) return;
    this.#isEnded = true;
    this.#socket?.destroy();
    this.onclose({code, reason});
  }
}
