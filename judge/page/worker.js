"use strict";
// Reads three files, sums them, and has the judge judge the very bytes that were summed.
const CAPTURE = 1, STEPS = 200;
const files = [null, null, null];
let next = 0;

self.page = {
  size: (file) => files[file].bytes.length,
  byte(file, place) {
    const {bytes} = files[file];
    if (file === CAPTURE && place >= next) {
      postMessage({part: place / bytes.length, doing: "Judging"});
      next = place + bytes.length / STEPS;
    }
    return bytes[place];
  },
};

// (A browser sums for a page from a disk, or by https, alone.)
async function sumOf(bytes) {
  const sum = await self.crypto.subtle?.digest("SHA-256", bytes);
  return sum ? Array.from(new Uint8Array(sum), (byte) => byte.toString(16).padStart(2, "0")).join("") : "";
}

async function read(file) {
  postMessage({part: 0, doing: "Reading"});
  const bytes = new Uint8Array(await file.arrayBuffer());
  return {file, bytes, sum: await sumOf(bytes)};
}

const textOf = ({bytes}) => bytes.length < 2 ** 25 ? new TextDecoder().decode(bytes) : "";

onmessage = async ({data}) => {
  const sums = () => files.map((file) => file?.sum);
  try {
    for (const number of [0, 1, 2])
      if (files[number]?.file !== data[number]) files[number] = await read(data[number]);
    next = 0;
    const said = self.page.judge(), [line, note] = said.slice(1).split("\n");
    postMessage({status: Number(said[0]), line, isEmpty: note === "empty", claim: textOf(files[0]),
      answer: textOf(files[2]), sums: sums()});
  } catch (error) {
    postMessage({status: 2, line: `page ${error.message || error}`, sums: sums()});
  }
};
