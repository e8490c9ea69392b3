// Uploads files to the folder of the page. A file is sent first on the condition that its name is free.
"use strict";
(() => {
  const WORDS = {
    0: "The connection was lost.",
    401: "You have to sign in again: reload the page.",
    403: "You may not write here.",
    409: "This folder no longer exists.",
    413: "The file is too large for this server.",
    423: "The file is locked, because another user or program is working on it.",
    503: "The server is busy. Try again later.",
    507: "There is not enough space on the server.",
  };
  const section = document.getElementById("upload");
  const choose = document.getElementById("choose");
  const input = document.getElementById("files");
  const again = document.getElementById("again");
  const longest = Number(section.dataset.longest);
  const waiting = [];
  let unfinished = 0;
  let failed = 0;
  let isSending = false;

  function element(parent, name, text) {
    const made = document.createElement(name);
    made.textContent = text;
    parent.append(made);
    return made;
  }

  function button(upload, text, act) {
    const made = element(upload.buttons, "button", text);
    made.setAttribute("aria-label", text + " " + upload.name);
    made.addEventListener("click", () => {
      upload.buttons.textContent = "";
      choose.focus();
      act();
    });
  }

  function start(name, file) {
    const row = element(document.getElementById("uploads"), "li", "");
    element(row, "bdi", name);
    const upload = { name, file, row, said: element(row, "span", "Waiting"), replaces: false };
    upload.buttons = element(row, "p", "");
    unfinished += 1;
    if (!file) {
      finish(upload, "wrong", "Folders cannot be uploaded. Open the folder and choose its files.");
    } else if (file.size > longest) {
      finish(upload, "wrong", WORDS[413]);
    } else {
      waiting.push(upload);
    }
  }

  function finish(upload, kind, text) {
    upload.row.className = kind;
    upload.said.textContent = text;
    unfinished -= 1;
    failed += kind === "wrong" ? 1 : 0;
  }

  // Sends the next file. When all are done, it shows the new list of the folder.
  function next() {
    if (isSending) {
      return;
    }
    if (waiting.length > 0) {
      isSending = true;
      send(waiting.shift());
    } else if (unfinished === 0 && failed === 0) {
      location.reload();
    } else if (unfinished === 0) {
      again.hidden = false;
    }
  }

  function send(upload) {
    const progress = element(upload.row, "progress", "");
    const request = new XMLHttpRequest();
    upload.said.textContent = "Uploading";
    request.upload.addEventListener("progress", (event) => {
      progress.max = event.total || 1;
      progress.value = event.loaded;
    });
    request.addEventListener("loadend", () => {
      isSending = false;
      progress.remove();
      settle(upload, request.status);
      next();
    });
    request.open("PUT", "./" + encodeURIComponent(upload.name.replace(/\p{Surrogate}/gu, "\ufffd")));
    if (!upload.replaces) {
      request.setRequestHeader("If-None-Match", "*");
    }
    request.send(upload.file);
  }

  function settle(upload, status) {
    if (status === 412 && !upload.replaces) {
      ask(upload);
    } else if (status >= 200 && status < 300) {
      finish(upload, "good", "Uploaded");
    } else if (status === 403 && upload.replaces) {
      finish(upload, "wrong", "You may not replace it, or it is a folder.");
    } else {
      finish(upload, "wrong", WORDS[status] || "The server answered with the status " + status + ".");
    }
  }

  function ask(upload) {
    upload.said.textContent = "This name exists already. Replace it?";
    button(upload, "Replace", () => {
      upload.replaces = true;
      upload.said.textContent = "Waiting";
      waiting.push(upload);
      next();
    });
    button(upload, "Keep", () => {
      finish(upload, "", "Not uploaded");
      next();
    });
  }

  function startAll(files) {
    again.hidden = true;
    for (const [name, file] of files) {
      start(name, file);
    }
    if (files.length > 0) {
      next();
    }
  }

  // Returns the names of what was dropped, each with its file, or with null for a folder.
  function dropped(transfer) {
    const files = [];
    for (const item of transfer.items) {
      const entry = item.webkitGetAsEntry();
      const file = item.getAsFile();
      if (entry && entry.isDirectory) {
        files.push([entry.name, null]);
      } else if (file) {
        files.push([file.name, file]);
      }
    }
    return files;
  }

  function onDrag(name, act) {
    addEventListener(name, (event) => {
      if (event.dataTransfer.types.includes("Files")) {
        event.preventDefault();
        act(event);
      }
    });
  }

  const mark = (isDropping) => document.body.classList.toggle("dropping", isDropping);
  onDrag("dragover", () => mark(true));
  onDrag("dragleave", (event) => mark(event.relatedTarget !== null));
  onDrag("drop", (event) => {
    mark(false);
    startAll(dropped(event.dataTransfer));
  });
  choose.addEventListener("click", () => input.click());
  input.addEventListener("change", () => {
    startAll(Array.from(input.files, (file) => [file.name, file]));
    input.value = "";
  });
  again.addEventListener("click", () => location.reload());
  addEventListener("beforeunload", (event) => {
    if (isSending) {
      event.preventDefault();
    }
  });
  section.hidden = false;
})();
