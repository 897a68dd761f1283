// Selects the account that signs in, if the key finds several.
import { checkType } from "./argument_checks.js";
import { raceWithSignal } from "./platform.js";

const EXPECTED_SELECTOR = "an index, a user name, a credential ID, or a function of the accounts that returns one of them";

/** @param {string} name @param {unknown} selector */
export const checkAccountSelector = (name, selector) =>
    checkType(name, selector, ["number", "string", "function"].includes(typeof selector), EXPECTED_SELECTOR);

/**
 * Returns the selected account.
 * @template {{ userName: string, credentialId: string }} Account @param {Account[]} accounts @param {any} selector
 * @returns {Promise<Account>}
 */
export const findAccount = async (accounts, selector) => {
    const choice = typeof selector === "function" ? await selector(accounts) : selector;
    const found = accounts.find((account, index) =>
        [account, index, account.userName, account.credentialId].includes(choice)
        || account.credentialId === choice?.credentialId);
    if (!found) {
        const names = accounts.map((account) => account.userName || account.credentialId).join(", ") || "none";
        throw new RangeError(`no account ${JSON.stringify(choice)}; available: ${names}`);
    }
    return found;
};

/** Selections of accounts for sign-ins with mediation "conditional", which wait for a selection. */
export class Selections {
    /** @type {{ selector: any, done: (account: any) => void, fail: (error: unknown) => void }[]} */
    #queue = [];
    /** @type {(value?: unknown) => void} */
    #wake = () => {};

    /**
     * Selects an account for the pending sign-in, or for the next one. Resolves to the account after the sign-in.
     * @param {unknown} selector
     */
    select(selector) {
        checkAccountSelector("account", selector);
        return new Promise((done, fail) => {
            this.#queue.push({ selector, done, fail });
            this.#wake();
        });
    }

    /**
     * Waits for the next selection.
     * @param {AbortSignal} signal
     */
    async next(signal) {
        for (;;) {
            const selection = this.#queue.shift();
            if (selection) {
                return selection;
            }
            await raceWithSignal(new Promise((wake) => {
                this.#wake = wake;
            }), signal);
        }
    }
}
