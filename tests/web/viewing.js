// Drives bindings/web/index.html in a frame: drops files, presses keys, clicks, and reads what is shown.
import { waitUntil } from "./harness.js";

export const frame = Object.assign(document.createElement("iframe"), { width: 1200, height: 1000 });
document.body.append(frame);
export const getPage = () => frame.contentWindow;
export const getElement = (id) => getPage().document.getElementById(id);
export const readNotice = () => getElement("notice").textContent;
export const listRows = () => [...getElement("space").querySelectorAll(".row")];
export const listTexts = () => listRows().map((row) => row.textContent);

export const dropFile = (name, bytes) => {
    const transfer = new (getPage().DataTransfer)();
    transfer.items.add(new (getPage().File)([bytes], name));
    getPage().document.dispatchEvent(new (getPage().DragEvent)("drop", { dataTransfer: transfer, cancelable: true }));
};

export const pressKey = (key) => {
    const event = new (getPage().KeyboardEvent)("keydown", { key, bubbles: true, cancelable: true });
    getPage().document.dispatchEvent(event);
};

export const chooseValue = (id, value) => {
    getElement(id).value = value;
    getElement(id).dispatchEvent(new (getPage().Event)(id === "search" ? "input" : "change"));
};

/** Sets a search or a channel, and waits until all rows have been searched. */
export const search = async (id, value) => {
    chooseValue(id, value);
    await waitUntil(() => !getElement("count").textContent.includes("found, at"), `all rows for ${value}`);
};

export const fetchBytes = async (path) => new Uint8Array(await (await fetch(`/${path}`)).arrayBuffer());

export const fetchExample = (name) => fetchBytes(`examples/${name}`);

export const encodeText = (text) => new TextEncoder().encode(text);

/** Reads the card: the side, the level, the line and the text. */
export const readCard = () => ({ ...getElement("diagnosis").dataset, text: getElement("diagnosis").textContent });

/** Waits until the card has a verdict on the opened file, and returns the card's contents. */
export const waitForCard = async () => {
    await waitUntil(() => readCard().level, "the diagnosis");
    return readCard();
};

/** Reloads the page, and drops a file on it. Unfolds the lines unless `isFolded`. */
export const openLog = async (name, bytes, isFolded = false) => {
    const loaded = new Promise((done) => frame.addEventListener("load", done, { once: true }));
    frame.src = "../../bindings/web/index.html";
    await loaded;
    await waitUntil(() => getPage().document.documentElement.dataset.ready === "yes", "the page");
    if (bytes) {
        dropFile(name, bytes);
        await waitUntil(() => readNotice() !== "", "a word on the file");
        const isWaiting = () => !getElement("progress").hidden || getElement("examine");
        await waitUntil(() => readCard().level || isWaiting(), "the diagnosis");
        if (!isFolded && !getElement("fold").disabled) {
            getElement("fold").click();
        }
    }
};
