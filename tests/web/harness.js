// Runs the tests of a page one after another, and posts the results to the server that started the browser. Also has
// functions for tests: conditions, waits and frames.

export const results = { tests: [], figures: [], logs: {} };

/** Fails a test if a condition is false. */
export const expect = (condition, text) => {
    if (!condition) {
        throw new Error(text);
    }
};

/** Returns the error that a promise is rejected with. */
export const getRejection = async (promise) => {
    try {
        await promise;
    } catch (error) {
        return error;
    }
    throw new Error("the promise was not rejected");
};

export const sleep = (milliseconds) => new Promise((done) => setTimeout(done, milliseconds));

// Maximum number of polls for a condition: five minutes in an idle page. A busy page polls less often.
const MAX_POLLS = 30_000;
const HEARTBEAT_MS = 5000;

/** Waits until a condition is true, even on a busy machine. */
export const waitUntil = async (condition, text) => {
    for (let polls = 0; polls < MAX_POLLS; polls += 1) {
        if (condition()) {
            return;
        }
        await sleep(10);
    }
    throw new Error(`timed out waiting for: ${text}`);
};

export const post = async (path, body) => {
    const response = await fetch(path, { method: "POST", body: JSON.stringify(body) });
    const reply = await response.json();
    if (!response.ok) {
        throw new Error(reply.error);
    }
    return reply;
};

/** Loads a page with its own key in a new frame, and returns the frame. */
export const loadFrame = async (address, allow = "") => {
    const frame = document.createElement("iframe");
    frame.allow = allow;
    frame.src = address;
    const loaded = new Promise((done) => frame.addEventListener("load", done, { once: true }));
    document.body.append(frame);
    await loaded;
    return frame;
};

/** Reloads a frame's page. */
export const reload = async (frame) => {
    const loaded = new Promise((done) => frame.addEventListener("load", done, { once: true }));
    frame.contentWindow.location.reload();
    await loaded;
};

/** Loads a page that posts a result, and returns the result. */
export const loadResult = async (address, allow) => {
    const posted = new Promise((done) => {
        addEventListener("message", ({ data }) => done(data), { once: true });
    });
    const frame = await loadFrame(address, allow);
    const result = await posted;
    frame.remove();
    return result;
};

/** Starts a worker that reports that the page is alive, however long a test takes. */
const startHeartbeat = () => {
    const text = `setInterval(() => fetch("${location.origin}/lives", { method: "POST", body: "{}" }), ${HEARTBEAT_MS})`;
    return new Worker(URL.createObjectURL(new Blob([text], { type: "text/javascript" })));
};

/** Runs a test. The error of the result is empty if it passed. */
const runTest = async (name, test) => {
    const begun = performance.now();
    let error = "";
    try {
        await test();
    } catch (thrown) {
        error = `${thrown.name}: ${thrown.message}`;
    }
    return { name, error, seconds: (performance.now() - begun) / 1000 };
};

/** Runs tests by name, or only the tests that `only` in the page's address names, and posts the results. */
export const run = async (tests) => {
    const addressed = new URLSearchParams(location.search);
    const only = addressed.getAll("only");
    const heartbeat = startHeartbeat();
    for (const [name, test] of Object.entries(tests).filter(([name]) => !only.length || only.includes(name))) {
        await post("/begun", { module: addressed.get("module"), test: name });
        results.tests.push(await runTest(name, test));
    }
    document.body.textContent = JSON.stringify(results.tests, null, 1);
    heartbeat.terminate();
    const { next } = await post("/done", results);
    if (next) {
        location.href = next;
    }
};
