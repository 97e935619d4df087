// A small text as part of the page's address. Nothing is sent anywhere: what stands behind # stays in the browser.

/** Bytes through a stream of the browser's own, up to a limit. */
async function through(stream, bytes, limit) {
  const reader = new Blob([bytes]).stream().pipeThrough(stream).getReader(), pieces = [];
  for (let length = 0; ;) {
    const { done, value } = await reader.read();
    if (done) return new Uint8Array(await new Blob(pieces).arrayBuffer());
    length += value.length;
    if (length > limit) throw new Error("too long");
    pieces.push(value);
  }
}

async function makeLink() {
  const packed = asCharacters(await through(new CompressionStream("deflate-raw"), ownBytes(), LONGEST_TEXT));
  const code = btoa(packed).replaceAll("+", "-").replaceAll("/", "_").replaceAll("=", "");
  if (code.length > LONGEST_LINK) return note("The text is too long for a link: armcaps-page makes a page of it.");
  history.replaceState(null, "", `#text=${code}`);
  const isCopied = await navigator.clipboard?.writeText(location.href).then(() => true, () => false);
  const length = `${location.href.length} characters`;
  note(isCopied ? `The link is copied, ${length}.` : `The link is in the address of this page, ${length}.`);
}

/** The text that the page's address holds, or null. */
async function textOfLink() {
  const code = location.hash.match(/^#text=([\w-]+)$/)?.[1];
  if (!code) return null;
  try {
    const packed = asBytes(atob(code.replaceAll("-", "+").replaceAll("_", "/")));
    return await through(new DecompressionStream("deflate-raw"), packed, LONGEST_TEXT);
  } catch {
    note("The address of this page holds no text that can be read.");
    return null;
  }
}
