// The simulated user: provides the presence that a test sets, after a delay.
import { checkType, checkName } from "./argument_checks.js";
import { sleepUnlessAborted, raceWithSignal } from "./platform.js";

const PRESENCE_WORDS = ["granted", "denied", "timeout"];
const PRESENCE_VALUES = [...PRESENCE_WORDS, "click", "none"];
const EXPECTED_WORD = `one of ${PRESENCE_VALUES.map((word) => `"${word}"`).join(", ")}`;
const EXPECTED_PRESENCE = `${EXPECTED_WORD}, or a function that returns one of them`;

/**
 * Asks the user with a dialog that has two buttons.
 * @param {string} question @param {AbortSignal} signal
 */
const askInDialog = async (question, signal) => {
    const dialog = document.createElement("dialog");
    dialog.append(`${question} `);
    const answered = new Promise((done) => {
        for (const [label, word] of [["Allow", "granted"], ["Deny", "denied"]]) {
            const button = document.createElement("button");
            button.textContent = label;
            button.addEventListener("click", () => done(word));
            dialog.append(button);
        }
    });
    (document.body ?? document.documentElement).append(dialog);
    dialog.showModal();
    try {
        return await raceWithSignal(answered, signal);
    } finally {
        dialog.remove();
    }
};

/** @param {unknown} presence */
const checkPresence = (presence) => {
    checkType("presence", presence, typeof presence === "string" || typeof presence === "function", EXPECTED_PRESENCE);
    if (typeof presence === "string") {
        checkName("presence", presence, PRESENCE_VALUES);
    }
};

export class User {
    /** @type {any} */
    #presence;
    /** @type {any} */
    #delay;
    #changes = new EventTarget();

    /** @param {{ presence: unknown, delay: unknown }} options */
    constructor({ presence, delay }) {
        this.presence = presence;
        this.delay = delay;
    }

    get presence() {
        return this.#presence;
    }

    set presence(presence) {
        checkPresence(presence);
        this.#presence = presence;
        this.#changes.dispatchEvent(new Event("change"));
    }

    get delay() {
        return this.#delay;
    }

    set delay(delay) {
        checkType("delay", delay, typeof delay === "number" && delay >= 0 && delay < 2 ** 31, "a number of milliseconds below 2^31");
        this.#delay = delay;
    }

    /**
     * Waits until the test sets the option `presence`.
     * @param {AbortSignal} signal
     */
    #changed(signal) {
        const changed = new Promise((done) => {
            this.#changes.addEventListener("change", done, { once: true });
        });
        return raceWithSignal(changed, signal);
    }

    /**
     * Asks the user, and waits for the reply.
     * @param {string} question @param {AbortSignal} signal @returns {Promise<string>}
     */
    async answer(question, signal) {
        if (this.#delay > 0) {
            await sleepUnlessAborted(this.#delay, signal);
        }
        const presence = this.#presence;
        const word = typeof presence === "function"
            ? await raceWithSignal(presence(question, signal), signal) : presence;
        if (word === "none") {
            await this.#changed(signal);
            return this.answer(question, signal);
        }
        if (word === "click") {
            return askInDialog(question, signal);
        }
        checkType("the result of presence", word, PRESENCE_WORDS.includes(word), EXPECTED_WORD);
        return word;
    }
}
