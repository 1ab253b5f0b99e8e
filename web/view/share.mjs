// What is shown, as an address, as a file and as a picture.
const LONGEST_PLAIN = 600; // characters of an address in which a script stays readable, at most
export const LONGEST_ADDRESS = 30000; // characters of an address that other programs are known to pass on

const through = (octets, stream) => new Response(new Blob([octets]).stream().pipeThrough(stream)).arrayBuffer();

// Returns a text as letters of an address: compressed by DEFLATE, as base64 with - and _.
export async function packed(text) {
    const octets = new Uint8Array(await through(text, new CompressionStream('deflate-raw')));
    const letters = Array.from(octets, (it) => String.fromCharCode(it)).join('');
    return btoa(letters).replaceAll('+', '-').replaceAll('/', '_').replace(/=+$/, '');
}

// Returns the text of such letters. Throws an Error if they do not form one.
export async function unpacked(letters) {
    try {
        const octets = Uint8Array.from(atob(letters.replaceAll('-', '+').replaceAll('_', '/')), (it) => it.charCodeAt(0));
        return new TextDecoder('utf-8', { fatal: true }).decode(await through(octets, new DecompressionStream('deflate-raw')));
    } catch {
        throw new Error('the address has no whole script');
    }
}

// Returns the part of an address that contains a script, or null if it is too long.
export async function scriptPart(text) {
    const plain = `script=${encodeURIComponent(text)}`;
    if (plain.length <= LONGEST_PLAIN) return plain;
    if (text.length > 20 * LONGEST_ADDRESS) return null;
    const letters = await packed(text);
    return letters.length <= LONGEST_ADDRESS ? `packed=${letters}` : null;
}

// The page as it was before its program began, as a file that begins with what an address says.
export function pageOf(whole, address) {
    whole.dataset.begins = address;
    return `<!doctype html>\n${whole.outerHTML}\n`;
}

// A drawing of the page as a file of its own: its rules, with the colours that they have now.
export function pictureOf(svg) {
    const to = svg.cloneNode(true), shown = getComputedStyle(document.documentElement);
    const rules = [...document.styleSheets].flatMap((sheet) => [...sheet.cssRules])
        .filter((it) => /\.ladder|-tip/.test(it.selectorText ?? '')).map((it) => it.cssText).join('\n');
    const own = rules.replace(/var\((--[\w-]+)\)/g, (_, name) => shown.getPropertyValue(name).trim());
    const style = document.createElementNS('http://www.w3.org/2000/svg', 'style');
    style.textContent = own;
    to.querySelectorAll('.place, .reach, .now').forEach((it) => it.remove());
    to.setAttribute('xmlns', 'http://www.w3.org/2000/svg');
    to.setAttribute('style', `background:${getComputedStyle(document.body).backgroundColor};font-size:${svg.style.fontSize}`);
    to.prepend(style, document.querySelector('.tips defs').cloneNode(true));
    return new XMLSerializer().serializeToString(to);
}

// Returns the drawing as a PNG, at twice the size unless that is too large.
export async function pngOf(text, width, height) {
    const scale = height < 8000 ? 2 : 1, canvas = document.createElement('canvas'), image = new Image();
    image.src = `data:image/svg+xml;charset=utf-8,${encodeURIComponent(text)}`;
    await image.decode();
    Object.assign(canvas, { width: width * scale, height: height * scale });
    canvas.getContext('2d').drawImage(image, 0, 0, canvas.width, canvas.height);
    return new Promise((end) => { canvas.toBlob(end, 'image/png'); });
}

export function save(name, type, part) {
    const link = document.createElement('a');
    link.href = URL.createObjectURL(new Blob([part], { type }));
    link.download = name;
    link.click();
    setTimeout(() => URL.revokeObjectURL(link.href), 10000);
}
