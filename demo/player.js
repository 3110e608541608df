"use strict";

// Plays what a vodpack origin lists, with nothing but what a browser has: HLS where it plays that by itself, and MPDs by Media
// Source Extensions. It shows that the lists and segments play; for a public page take a player such as hls.js, dash.js or Shaka.

const video = document.getElementById("video");
const address = document.getElementById("address");
const told = document.getElementById("told");

function tell(text) {
  told.textContent = text;
}

async function take(url) {
  const reply = await fetch(url);
  if (!reply.ok) {
    throw new Error(`${url}: ${reply.status} ${await reply.text()}`);
  }
  return reply;
}

function seconds(duration) {
  return Number(duration.slice(2, -1));
}

// The representations of a period that are played: the first of each kind.
function chosen(period) {
  return [...period.querySelectorAll("AdaptationSet")].map((set) => {
    const representation = set.querySelector("Representation");
    const list = representation.querySelector("SegmentList");
    return {
      type: `${set.getAttribute("mimeType")}; codecs="${representation.getAttribute("codecs")}"`,
      offset: seconds(period.getAttribute("start")) - list.getAttribute("presentationTimeOffset") / list.getAttribute("timescale"),
      names: [list.querySelector("Initialization").getAttribute("sourceURL"), ...[...list.querySelectorAll("SegmentURL")].map((it) => it.getAttribute("media"))],
    };
  });
}

function appended(buffer, bytes) {
  return new Promise((resolve, reject) => {
    buffer.onupdateend = resolve;
    buffer.onerror = () => reject(new Error("a segment isn't taken"));
    buffer.appendBuffer(bytes);
  });
}

// Appends all segments of all periods, kind by kind.
async function fill(source, base, periods) {
  const buffers = new Map();
  for (const period of periods) {
    for (const part of chosen(period)) {
      const kind = part.type.split(";")[0];
      if (!buffers.has(kind)) {
        buffers.set(kind, source.addSourceBuffer(part.type));
      }
    }
  }
  const all = [...buffers].map(async ([kind, buffer]) => {
    for (const period of periods) {
      for (const part of chosen(period).filter((it) => it.type.startsWith(kind))) {
        buffer.timestampOffset = part.offset;
        for (const name of part.names) {
          await appended(buffer, await (await take(new URL(name, base))).arrayBuffer());
        }
      }
    }
  });
  await Promise.all(all);
  source.endOfStream();
}

async function playDescription(url) {
  const text = await (await take(url)).text();
  const description = new DOMParser().parseFromString(text, "application/xml");
  const source = new MediaSource();
  video.src = URL.createObjectURL(source);
  await new Promise((resolve) => source.addEventListener("sourceopen", resolve, { once: true }));
  await fill(source, new URL(url, location.href), [...description.querySelectorAll("Period")]);
}

async function play(url) {
  address.value = url;
  tell("");
  if (url.split("?")[0].endsWith(".mpd")) {
    await Promise.all([playDescription(url), video.play().catch(() => {})]);
  } else if (video.canPlayType("application/vnd.apple.mpegurl")) {
    video.src = url;
    await video.play();
  } else {
    tell("This browser doesn't play HLS by itself.");
  }
}

function playShown(url) {
  play(url).catch((error) => tell(String(error)));
}

video.addEventListener("error", () => tell(`the video stopped: ${video.error.message}`));
video.addEventListener("ended", () => tell(`played ${video.currentTime.toFixed(3)} of ${video.duration.toFixed(3)} seconds`));
document.getElementById("play").addEventListener("click", () => playShown(address.value));
window.addEventListener("hashchange", () => playShown(location.hash.slice(1)));
if (location.hash) {
  playShown(location.hash.slice(1));
}
