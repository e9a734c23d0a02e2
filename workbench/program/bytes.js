// Texts and bytes. A byte that is no part of UTF-8 is kept as a lone surrogate, U+DC80 and up, so that every file survives.

export function bytesOfText(text) {
  const encoder = new TextEncoder();
  if (!/[\udc80-\udcff]/.test(text)) return encoder.encode(text);
  const bytes = [];
  for (const sign of text) {
    const code = sign.codePointAt(0);
    if (code >= 0xdc80 && code <= 0xdcff) bytes.push(code - 0xdc00);
    else bytes.push(...encoder.encode(sign));
  }
  return new Uint8Array(bytes);
}

export function textOfBytes(bytes) {
  try {
    return new TextDecoder("utf-8", { fatal: true, ignoreBOM: true }).decode(bytes);
  } catch {
    return surrogateEscaped(bytes);
  }
}

function surrogateEscaped(bytes) {
  const decoder = new TextDecoder("utf-8", { fatal: true, ignoreBOM: true });
  let text = "", at = 0;
  while (at < bytes.length) {
    const size = bytes[at] < 0x80 ? 1 : bytes[at] < 0xe0 ? 2 : bytes[at] < 0xf0 ? 3 : 4;
    try {
      text += decoder.decode(bytes.subarray(at, at + size));
      at += size;
    } catch {
      text += String.fromCharCode(0xdc00 + bytes[at]);
      at += 1;
    }
  }
  return text;
}

export function latin1(bytes) {
  let text = "";
  for (let at = 0; at < bytes.length; at += 8192) text += String.fromCharCode.apply(null, bytes.subarray(at, at + 8192));
  return text;
}

export function isEqualBytes(one, other) {
  return one.length === other.length && one.every((byte, k) => byte === other[k]);
}

export function base64(bytes) { return btoa(latin1(bytes)); }
export function bytesOfBase64(text) { return Uint8Array.from(atob(text), sign => sign.charCodeAt(0)); }
