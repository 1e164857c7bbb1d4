// Certificates: made of what grew, handed in, and checked by the program site by site.
import { joined, Lines } from "./bytes.js";
import { $, button } from "./dom.js";
import { bytesOfFile, download } from "./saving.js";
import { linesOf } from "./growing.js";
import { placesBytes, readGrowth } from "./growth.js";
import { load } from "./loading.js";
import { meaningOf } from "./meanings.js";
import { ask, asking, lack, Unanswered } from "./program.js";
import { refusedVerdict } from "./verdict.js";
import { on, page } from "./state.js";

let certificate = null;
export const theCertificate = () => certificate;

function say(text, tone = "plain") {
  Object.assign($("certificate-told"), { textContent: text }).dataset.tone = tone;
}

// Does something with the program, and tells a refusal or what went wrong.
async function asked(action) {
  if (!page.system || page.isStale) return say("The text does not grow: mend it first.");
  if (lack) return say(lack);
  try {
    return await action();
  } catch (why) {
    return why instanceof Unanswered ? say(why.isEnded ? "" : why.message) : say(`It can't be read: ${why.message}`);
  }
}

const make_ = () => asked(async () => {
  const ran = await ask(asking, ["certify"], joined([page.systemBytes, placesBytes(page.growth)]));
  if (ran.status === 0) return show(ran.out, "Made: ");
  const why = meaningOf(page.growth, linesOf(ran.out)[0] ?? []);
  return say(`There is no certificate, for the verdict is no yes. ${why.text}`, "no");
});

// Shows a certificate over its system, with what the program says of it.
async function show(bytes, before) {
  const input = joined([page.systemBytes, bytes]), ran = await ask(asking, ["verify"], input);
  if (ran.status > 1) {
    const refused = refusedVerdict(ran.said, input, "verify");
    const line = refused.line - page.system.lastLine, more = refused.details.join("; ");
    return say(`Refused, in line ${line} of the certificate: ${refused.text} ${more}`, "no");
  }
  certificate = bytes;
  const { system, kind, systemBytes, bytes: text } = page, growth = readGrowth(system, bytes, 0, system.lastLine);
  load({ kind: "certificate", systemBytes, system, growth, told: linesOf(ran.out), answer: ran }, text);
  page.kind = kind;
  $("certificate-save").hidden = false;
  const verdict = page.verdict;
  const told = `${before}${growth.count.toLocaleString("en")} marks. ${verdict.head}: ${verdict.text}`;
  return say(`${told} Each arrow in the picture is a side by which its tile came.`, verdict.tone);
}

// The marks alone, where the file has a system in front of them.
function marksOf(bytes) {
  const lines = new Lines(bytes);
  while (lines.next()) if (lines.count === 1 && lines.is(0, "end")) return bytes.slice(lines.at);
  return bytes;
}

export function beginCertificate() {
  $("certificate-make").addEventListener("click", make_);
  $("certificate-save").addEventListener("click", () => certificate && download("assembly.certificate", certificate));
  $("certificate-open").addEventListener("change", (event) => asked(async () => {
    const [file] = event.target.files;
    if (!file) return undefined;
    const bytes = await bytesOfFile(file);
    event.target.value = "";
    return show(marksOf(bytes), "Handed in: ");
  }));
  on("typed", () => { certificate = null; $("certificate-save").hidden = true; say(""); });
  void button;
}
