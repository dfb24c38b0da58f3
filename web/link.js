// Links that hold a text, or name an example, and say what is to be done: `#text=..&do=play`,
// `#example=gate.qdimacs&do=play`.

// Longer links than this are cut by some programs.
const LONGEST = 8000;

async function through(stream, bytes) {
  const piped = new Blob([bytes]).stream().pipeThrough(stream);
  return new Uint8Array(await new Response(piped).arrayBuffer());
}

// A link to a text, or null where the text is too long for one.
export async function linkTo(text, job) {
  const packed = await through(new CompressionStream("deflate-raw"), new TextEncoder().encode(text));
  if (packed.length > LONGEST) return null;
  const code = btoa(String.fromCharCode(...packed)).replaceAll("+", "-").replaceAll("/", "_").replace(/=+$/, "");
  const link = new URL(location.href);
  link.hash = new URLSearchParams(job ? { text: code, do: job } : { text: code });
  return link.href.length > LONGEST ? null : link.href;
}

// What a link asks for: a text or the name of an example, and a job; each of them may be missing.
export async function readLink(hash) {
  const asked = new URLSearchParams(hash.slice(1));
  const code = asked.get("text");
  const wanted = { text: null, example: asked.get("example"), job: asked.get("do") };
  if (code) {
    try {
      const packed = Uint8Array.from(atob(code.replaceAll("-", "+").replaceAll("_", "/")), c => c.charCodeAt(0));
      wanted.text = new TextDecoder().decode(await through(new DecompressionStream("deflate-raw"), packed));
    } catch {
      // A link that was cut holds no text.
    }
  }
  return wanted;
}
