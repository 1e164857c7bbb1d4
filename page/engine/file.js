// The file behind tools/live: read where it changed, and saved.
import { failure } from "./failure.js";

class LiveFile {
  constructor(address, name) {
    this.address = address;
    this.name = name;
  }

  async ask(rest, how) {
    let came;
    try {
      came = await fetch(`${this.address}/file${rest}`, how);
    } catch {
      throw failure("gone");
    }
    if (!came.ok) throw new Error((await came.text()).trim());
    return came.json();
  }

  // {stamp, text}, or {stamp} alone where the file still has the stamp that is known.
  read(stamp) {
    return this.ask(`?stamp=${encodeURIComponent(stamp)}`);
  }

  // Puts the bytes in place of the file's: {stamp}.
  async write(bytes) {
    const answer = await this.ask("", { method: "PUT", body: bytes });
    if (answer.err) throw new Error(answer.err);
    return answer;
  }
}

// The file that is edited, or null where the page does not come from tools/live.
export function liveFile() {
  const { live, file } = document.documentElement.dataset;
  return live ? new LiveFile(live, file) : null;
}
