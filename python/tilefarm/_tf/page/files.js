/** Pictures that the user opens: as they are where `tf` reads them, else as the browser decodes them. */

export async function bytesOf(file) {
  return new Uint8Array(await file.arrayBuffer());
}

/** A picture as the browser decodes it: a raw PPM with samples of 8 bits. */
export async function decoded(file) {
  const bitmap = await createImageBitmap(file);
  const canvas = new OffscreenCanvas(bitmap.width, bitmap.height);
  const context = canvas.getContext("2d");
  context.drawImage(bitmap, 0, 0);
  return ppm(context.getImageData(0, 0, bitmap.width, bitmap.height));
}

/** A raw PPM picture of the colours; what is transparent is left out. */
function ppm({ width, height, data }) {
  const head = new TextEncoder().encode(`P6\n${width} ${height}\n255\n`);
  const found = new Uint8Array(head.length + width * height * 3);
  found.set(head);
  for (let from = 0, to = head.length; from < data.length; from += 4, to += 3) {
    found[to] = data[from];
    found[to + 1] = data[from + 1];
    found[to + 2] = data[from + 2];
  }
  return found;
}
