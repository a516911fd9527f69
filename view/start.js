"use strict";

// Begins the page of one play: the one that bin/view has put into it, or else the one of a file that is opened.

const startedWith = { docs: "../docs/", ...JSON.parse(document.getElementById("play").textContent) };

// Each byte of a file is one character, as where bin/view has put the text into the page.
function openFile(file) {
  const reader = new FileReader();
  const textOf = (bytes) => Array.from(bytes, (byte) => String.fromCharCode(byte)).join("");
  reader.onload = () => drawPlay(textOf(new Uint8Array(reader.result)), startedWith.docs);
  reader.readAsArrayBuffer(file);
}

if (startedWith.text === undefined) {
  document.getElementById("file").onchange = (event) => openFile(event.target.files[0]);
} else {
  document.getElementById("open").hidden = true;
  drawPlay(startedWith.text, startedWith.docs);
}
