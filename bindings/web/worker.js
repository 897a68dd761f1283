// Runs long work: in steps that keep the page responsive, or in a worker, such as the core's commands on long logs.
// Sets `globalThis.hidlogBackground`.
"use strict";

(() => {
    // Milliseconds of work per slice.
    const SLICE_MS = 24;

    const yieldToPage = () => new Promise((done) => {
        setTimeout(done, 0);
    });

    /** @param {IteratorResult<unknown, unknown>} step */
    const isPromise = (step) => step.value instanceof Promise;

    /**
     * Runs steps of a generator for some milliseconds. The first step receives `value`. Returns the last step's result.
     * @template Part, Result
     * @param {Generator<Part, Result, any>} steps
     * @param {number} milliseconds
     * @param {unknown} [value]
     */
    const runSteps = (steps, milliseconds, value) => {
        const end = performance.now() + milliseconds;
        let step = steps.next(value);
        while (!step.done && !isPromise(step) && performance.now() < end) {
            step = steps.next();
        }
        return step;
    };

    /**
     * Runs all steps of a generator in slices, and calls `done` with the result. If the first slice suffices, `done` is
     * called synchronously. Between slices, `part` is called with the last step's value, unless that is a promise: a
     * promise ends the slice and is awaited, and the next step receives its result. `milliseconds` is the time of the first slice. Returns a job
     * that can be ended.
     * @template Part, Result
     * @param {Generator<Part, Result, any>} steps
     * @param {(part: Exclude<Part, Promise<any>>) => void} part
     * @param {(result: Result) => void} done
     */
    const runGenerator = (steps, part, done, milliseconds = SLICE_MS) => {
        const job = {
            isOver: false,
            end: () => {
                job.isOver = true;
                /** @type {Generator<Part, void, any>} */ (/** @type {unknown} */ (steps)).return();
            },
        };
        const first = runSteps(steps, milliseconds);
        if (first.done) {
            done(first.value);
            return job;
        }
        (async () => {
            /** @type {IteratorResult<Part, Result>} */
            let step = first;
            while (!job.isOver && !step.done) {
                if (!isPromise(step)) {
                    part(/** @type {Exclude<Part, Promise<any>>} */ (step.value));
                }
                /** @type {unknown} */
                const value = await (isPromise(step) ? step.value : yieldToPage());
                step = job.isOver ? step : runSteps(steps, SLICE_MS, value);
            }
            if (!job.isOver) {
                done(/** @type {Result} */ (step.value));
            }
        })();
        return job;
    };

    // Number of bytes that are posted to a worker at once, since a whole long log would block the page.
    const PART_BYTES = 4 * 1024 * 1024;
    // Scripts of every worker, and further scripts for some commands.
    const BASE_SCRIPTS = ["dist/bytes.js", "core.js", "log.js", "explain.js"];
    /** @type {Record<string, string[]>} */
    const EXTRA_SCRIPTS = {
        judge: ["dist/judge.js", "judge.js"],
        examine: ["dist/judge.js", "judge.js", "dist/wasm_key.js", "diagnosis_work.js"],
    };
    const WORKER_SCRIPT = `
        const run = async (core, { command, length, snapshot }) => {
            const copyLog = () => core.bytes.slice(core.logAt, core.logAt + length);
            if (command === "judge") {
                return hidlogJudge.judge(core, copyLog());
            }
            if (command === "examine") {
                return hidlogDiagnosisWork.examine(core, copyLog(), snapshot, (progress) => postMessage({ progress }));
            }
            const outcome = core.runHeld(command, length, snapshot);
            return command === "show" ? hidlogExplained.indexOutput(outcome) : outcome;
        };
        let [task, received] = [null, 0];
        onmessage = async ({ data: { part, ...newTask } }) => {
            try {
                task ??= newTask;
                globalThis.HIDLOG_WASM = task.wasm;
                const core = await hidlog.load();
                core.hold(part, received, task.length);
                received += part.length;
                if (received === task.length) {
                    const found = await run(core, task);
                    postMessage({ outcome: found }, [found.text, found.starts].flatMap((bytes) => bytes?.buffer ?? []));
                }
            } catch (error) {
                postMessage({ error: error.message });
            }
        };`;

    /**
     * A message of a worker: the result of the command, or an error.
     * @typedef {{ outcome?: any, error?: string }} Reply
     */

    /**
     * Posts a log to a worker in parts. The task is posted with the first part.
     * @param {Worker} worker
     * @param {Uint8Array} log
     * @param {object} task
     */
    const postLog = async (worker, log, task) => {
        for (let from = 0; from < log.length; from += PART_BYTES) {
            await yieldToPage();
            const part = log.slice(from, from + PART_BYTES);
            worker.postMessage({ part, ...(from ? {} : task) }, [part.buffer]);
        }
    };

    // Number of bytes of the length before compressed data (pack.py).
    const LENGTH_BYTES = 4;
    /** @type {Record<string, string> | null} */
    let unpackedSources = null;

    /**
     * The files of the page by name (dist/sources.js).
     * @returns {Record<string, string>}
     */
    const readSources = () => {
        const { fromBase64, unpack } = globalThis.hidlogBytes;
        unpackedSources ??= JSON.parse(new TextDecoder().decode(unpack(fromBase64(globalThis.HIDLOG_SOURCES))));
        return /** @type {Record<string, string>} */ (unpackedSources);
    };

    /**
     * Unpacks the files of the page with the browser's DecompressionStream, if it exists. Otherwise readSources()
     * unpacks them when they are needed.
     */
    const prepareSources = async () => {
        try {
            const packed = globalThis.hidlogBytes.fromBase64(globalThis.HIDLOG_SOURCES).subarray(LENGTH_BYTES);
            const stream = new Blob([packed]).stream().pipeThrough(new DecompressionStream("deflate-raw"));
            unpackedSources ??= await new Response(stream).json();
        } catch (error) {
            console.info(`the sources are unpacked later: ${/** @type {Error} */ (error).message}`);
        }
    };

    /**
     * Starts a worker with the scripts of a command.
     * @param {string} command
     */
    const startWorker = (command) => {
        const sources = readSources();
        const names = [...BASE_SCRIPTS, ...EXTRA_SCRIPTS[command] ?? []];
        const text = [...names.map((name) => sources[name]), WORKER_SCRIPT].join("\n");
        const address = URL.createObjectURL(new Blob([text], { type: "text/javascript" }));
        return { address, worker: new Worker(address) };
    };

    /**
     * Runs a command in the current thread.
     * @param {Viewer.Core} core
     * @param {string} command
     * @param {Uint8Array} log
     * @param {Uint8Array} snapshot
     * @returns {Reply}
     */
    const runInThisThread = (core, command, log, snapshot) => {
        if (EXTRA_SCRIPTS[command]) {
            throw new Error("this browser cannot start a worker");
        }
        const made = core.run(command, log, snapshot);
        return { outcome: command === "show" ? globalThis.hidlogExplained.indexOutput(made) : made };
    };

    /**
     * Runs a command on a log in a worker. The command is a command of the core, `judge` (judge.js) or `examine`
     * (diagnosis_work.js). If workers are not available, only the core's commands run, in this thread. `onProgress` is
     * called with the progress of `examine`. Returns a promise of the result, which for `show` is an index (explain.js),
     * and a function that ends the work.
     * @param {Viewer.Core} core
     * @param {string} command
     * @param {Uint8Array} log
     * @param {Uint8Array} snapshot
     * @param {(progress: Viewer.Progress) => void} onProgress
     */
    const runInWorker = (core, command, log, snapshot = new Uint8Array(0), onProgress = () => {}) => {
        /** @type {{ address: string, worker: Worker } | null} */
        let started = null;
        const end = () => {
            if (started) {
                started.worker.terminate();
                URL.revokeObjectURL(started.address);
            }
        };
        /** @type {Promise<Reply>} */
        const replied = new Promise((done, fail) => {
            started = startWorker(command);
            const { worker } = started;
            worker.onmessage = ({ data }) => (data.progress ? onProgress(data.progress) : done(data));
            worker.onerror = () => fail(new Error("cannot start a worker"));
            const task = { wasm: globalThis.HIDLOG_WASM, command, length: log.length, snapshot };
            postLog(worker, log, task).catch(fail);
        });
        const outcome = replied.catch(() => runInThisThread(core, command, log, snapshot)).then((reply) => {
            if (reply.error) {
                throw new Error(reply.error);
            }
            return reply.outcome;
        }).finally(end);
        return { outcome, end };
    };

    globalThis.hidlogBackground = { prepareSources, readSources, runGenerator, runInWorker };
})();
