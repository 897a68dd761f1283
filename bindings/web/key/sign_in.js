// Signs in with one of the matching credentials: the account that a test selects, or the first credential.
import { findAccount } from "./account_selection.js";
import { decodeBase64url, toBase64url } from "./bytes.js";
import { makeNotAllowedError } from "./errors.js";
import { isUsable } from "./key_extensions.js";
import { raceWithSignal } from "./platform.js";

const GET_NEXT_ASSERTION = Uint8Array.of(8);
// The start of a response with numberOfCredentials, the fifth member: status 0, and the head of a map of five entries.
const MAP_OF_FIVE = [0, 0xa5];

/** @typedef {import("./ceremony.js").Ceremony} Ceremony */
/** @typedef {import("./credentials.js").Credential} Credential */
/**
 * @typedef {object} Parts the parts of a key that a sign-in uses
 * @property {AbortSignal} signal
 * @property {import("./credential_metadata.js").CredentialMetadata} metadata
 * @property {import("./account_selection.js").Selections} selections
 * @property {any} account which of several accounts signs in
 * @property {boolean} isAutomatic whether mediation "conditional" waits for no selection
 * @property {(ceremony: Ceremony) => Promise<Uint8Array>} send
 * @property {(ceremony: Ceremony, bytes: Uint8Array) => Promise<Uint8Array>} exchange
 * @property {() => Promise<Credential[]>} listCredentials
 * @property {(credentialId: string) => Credential} find
 */

export class SignIn {
    #parts;

    /** @param {Parts} parts */
    constructor(parts) {
        this.#parts = parts;
    }

    /**
     * Signs in, and returns the credential as JSON.
     * @param {Ceremony} ceremony @param {boolean} isConditional @returns {Promise<any>}
     */
    async run(ceremony, isConditional) {
        if (!isConditional) {
            return this.#signIn(await this.#restrict(ceremony));
        }
        const { isAutomatic, account } = this.#parts;
        return isAutomatic ? (await this.#signInWith(ceremony, account)).assertion : this.#signInSelected(ceremony);
    }

    /**
     * The credential of a sign-in as JSON, with the credential ID for the page.
     * @param {Ceremony} ceremony @param {Uint8Array} response
     */
    #readAssertion(ceremony, response) {
        const json = ceremony.read(response);
        json.id = toBase64url(this.#parts.metadata.pageId(decodeBase64url(json.id)));
        json.rawId = json.id;
        return json;
    }

    /**
     * Returns the sign-in without credentials that their protection policies exclude.
     * @param {Ceremony} ceremony
     */
    async #restrict(ceremony) {
        const { metadata } = this.#parts;
        const isListed = ceremony.ids.length > 0;
        const ids = isListed
            ? ceremony.ids : (await this.#listAccounts(ceremony)).map(({ credentialId }) => decodeBase64url(credentialId));
        const left = ids.filter((id) => isUsable(metadata.extensions(metadata.coreId(id)), ceremony.isVerified, isListed));
        if (left.length === ids.length) {
            return ceremony;
        }
        if (!left.length) {
            const needed = isListed ? "user verification" : "user verification, or its ID in allowCredentials";
            throw makeNotAllowedError(`each credential's protection policy (credProtect) requires ${needed}`);
        }
        return ceremony.withCredentials(left);
    }

    /**
     * Signs in. If there are several accounts, uses the account that the option `account` selects.
     * @param {Ceremony} ceremony
     */
    async #signIn(ceremony) {
        const { send, exchange, find, account, signal } = this.#parts;
        const response = await send(ceremony);
        const assertions = [this.#readAssertion(ceremony, response)];
        const isOfSeveral = MAP_OF_FIVE.every((byte, at) => byte === response[at]);
        for (let more = isOfSeveral ? response[response.length - 1] - 1 : 0; more > 0; more -= 1) {
            assertions.push(this.#readAssertion(ceremony, await exchange(ceremony, GET_NEXT_ASSERTION)));
        }
        if (assertions.length === 1) {
            return assertions[0];
        }
        const accounts = assertions.map(({ id }) => find(id));
        return assertions[accounts.indexOf(await raceWithSignal(findAccount(accounts, account), signal))];
    }

    /**
     * Waits until a test selects an account, and signs in with that account.
     * @param {Ceremony} ceremony
     */
    async #signInSelected(ceremony) {
        const { selections, signal } = this.#parts;
        for (;;) {
            const selection = await selections.next(signal);
            try {
                const { account, assertion } = await this.#signInWith(ceremony, selection.selector);
                selection.done(account);
                return assertion;
            } catch (error) {
                selection.fail(error);
                if (!(error instanceof RangeError)) {
                    throw error;
                }
            }
        }
    }

    /**
     * Signs in with one of the accounts.
     * @param {Ceremony} ceremony @param {any} selector
     */
    async #signInWith(ceremony, selector) {
        const accounts = await this.#listAccounts(ceremony);
        if (this.#parts.isAutomatic && !accounts.length) {
            throw makeNotAllowedError("no discoverable credential can sign in");
        }
        const account = await findAccount(accounts, selector);
        const chosen = ceremony.withCredentials([decodeBase64url(account.credentialId)]);
        return { account, assertion: this.#readAssertion(chosen, await this.#parts.send(chosen)) };
    }

    /**
     * The discoverable credentials that can sign in, newest first.
     * @param {Ceremony} ceremony
     */
    async #listAccounts({ rpId, ids: allowed }) {
        const ids = allowed.map(toBase64url);
        const credentials = await this.#parts.listCredentials();
        return credentials.reverse().filter(({ isResidentCredential, rpId: ownRpId, credentialId }) =>
            isResidentCredential && ownRpId === rpId && (!ids.length || ids.includes(credentialId)));
    }
}
