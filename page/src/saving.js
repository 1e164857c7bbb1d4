// Files: how they are read and saved.

// as many bytes as the program reads
export const LONGEST = 67108864;

export async function bytesOfFile(file) {
  if (file.size > LONGEST) throw new Error(`${file.name} has more than 64 MiB`);
  return new Uint8Array(await file.arrayBuffer());
}

// Hands bytes, or a blob, to the browser to be saved under a name.
export function download(name, content, type = "text/plain") {
  const url = URL.createObjectURL(content instanceof Blob ? content : new Blob([content], { type }));
  const link = document.createElement("a");
  Object.assign(link, { href: url, download: name });
  link.click();
  setTimeout(() => URL.revokeObjectURL(url), 10000);
}
