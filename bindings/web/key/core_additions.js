// The features of a key that are added outside the core to one request of a page: flags, AAGUID, attestation, keys of
// other algorithms, and extensions. The core's recording is not changed, except for a comment on each feature.
import { formatAlgorithm, replaceAttestedData } from "./algorithms.js";
import { concatBytes, decodeBase64url, fromBase64, fromHex, toBase64url } from "./bytes.js";
import { formatFlags } from "./credential_metadata.js";
import { encodeArray, encodeBytes, encodeMap, encodeNumber, encodeText } from "./ctap_response.js";
import {
    encodeRegistrationOutputs, encodeSignInOutputs, makeExtensionData, makeRegistrationResults, makeSignInResults,
} from "./key_extensions.js";
import { CERTIFICATE, PRIVATE_KEY } from "./attestation_certificates.js";

const FLAGS_OFFSET = 32;
const ED = 0x80;
const ES256 = -7;
const NO_AAGUID = new Uint8Array(16);
const ATTESTATION_REQUESTS = ["indirect", "direct", "enterprise"];

/** @typedef {import("./ceremony.js").Ceremony} Ceremony */
/** @typedef {import("./abilities.js").AuthenticatorOptions} AuthenticatorOptions */
/** @typedef {{ format: "self" | "none" | "basic", aaguid: Uint8Array }} Attestation */

/**
 * The attestation that a page gets. As in Chromium, an attestation "basic" that the page does not request is replaced
 * by "none", and the AAGUID is then cleared unless the key is a platform authenticator (WebAuthn Level 3, section 5.1.3,
 * step 22).
 * @param {AuthenticatorOptions} abilities @param {string | undefined} requested
 * @returns {Attestation}
 */
const selectAttestation = (abilities, requested) => {
    const aaguid = fromHex(abilities.get("aaguid").replaceAll("-", ""));
    const format = abilities.get("attestation");
    if (format !== "basic" || ATTESTATION_REQUESTS.includes(String(requested))) {
        return { format, aaguid };
    }
    return { format: "none", aaguid: abilities.attachment === "platform" ? aaguid : NO_AAGUID };
};

/** @param {[string, Uint8Array][]} members in canonical order */
const encodeStatement = (members) => encodeMap(members.map(([name, value]) => [encodeText(name), value]));

export class CoreAdditions {
    #ceremony;
    #abilities;
    #metadata;
    #privateKeys;

    /**
     * @param {Ceremony} ceremony @param {AuthenticatorOptions} abilities
     * @param {import("./credential_metadata.js").CredentialMetadata} metadata
     * @param {import("./private_keys.js").PrivateKeys} privateKeys
     */
    constructor(ceremony, abilities, metadata, privateKeys) {
        this.#ceremony = ceremony;
        this.#abilities = abilities;
        this.#metadata = metadata;
        this.#privateKeys = privateKeys;
        const { name, options } = ceremony;
        this.extensions = options.extensions ?? {};
        this.attestation = selectAttestation(abilities, name === "create" ? options.attestation : undefined);
    }

    /** The algorithm of a new credential. */
    get algorithm() {
        return this.#ceremony.algorithm;
    }

    /**
     * Stores the data of a new credential that is outside the core.
     * @param {Uint8Array} id
     */
    storeCreated(id) {
        this.#metadata.setBackup(id, this.#abilities.backup);
        const { options, isDiscoverable } = this.#ceremony;
        this.#metadata.setExtensions(id, makeExtensionData(options, this.#abilities, isDiscoverable));
    }

    /** @param {Uint8Array} id */
    #privateKey(id) {
        return /** @type {import("./private_keys.js").PrivateKey} */ (this.#privateKeys.get(id));
    }

    /**
     * Changes authenticator data of the core. Returns the changed data with a description of each change.
     * @param {Uint8Array} id @param {Uint8Array} original @param {boolean} isVerified
     */
    async alter(id, original, isVerified) {
        const flags = this.#metadata.flags(id, isVerified);
        const comments = flags ? [`flags ${formatFlags(flags)}, and the signature over them`] : [];
        const isCreation = this.#ceremony.name === "create";
        const data = isCreation ? await this.#replaceAttestedData(id, original, comments) : original.slice();
        const kept = this.#metadata.extensions(id);
        const outputs = (isCreation ? encodeRegistrationOutputs : encodeSignInOutputs)(kept, this.extensions, this.#abilities);
        data[FLAGS_OFFSET] |= flags | (outputs.length ? ED : 0);
        const { algorithm } = this.#privateKey(id);
        if (algorithm) {
            comments.push(`a key of ${formatAlgorithm(algorithm)}, whose signature the page gets in place of this one`);
        }
        if (outputs.length) {
            comments.push("extension outputs in the authenticator data, and the signature over them");
        }
        return { data: concatBytes(data, outputs), comments };
    }

    /** @param {Uint8Array} id @param {Uint8Array} original @param {string[]} comments */
    async #replaceAttestedData(id, original, comments) {
        const privateKey = this.#privateKey(id);
        const { format, aaguid } = this.attestation;
        if (format !== "self") {
            comments.push(format === "none" ? "attestation none" : "attestation by the certificate of the test root");
        }
        if (aaguid.some(Boolean)) {
            comments.push(`AAGUID ${this.#abilities.get("aaguid")}`);
        }
        const { cose } = privateKey.algorithm ? await this.#privateKeys.exportPublicKey(privateKey) : { cose: undefined };
        return replaceAttestedData(original, { aaguid, cose });
    }

    /**
     * The attestation statement of a registration, or the signature of a sign-in, if it replaces the core's.
     * @param {Uint8Array} id @param {Uint8Array} toSign @param {boolean} isBad whether to sign with another key
     * @returns {Promise<{ statement?: { format: string, members: Uint8Array }, signature?: Uint8Array }>}
     */
    async complete(id, toSign, isBad) {
        const privateKey = this.#privateKey(id);
        const sign = () => this.#privateKeys.signWithAlgorithm(privateKey, toSign, isBad);
        if (this.#ceremony.name === "get") {
            return privateKey.algorithm ? { signature: await sign() } : {};
        }
        const { format } = this.attestation;
        if (format === "none") {
            return { statement: { format, members: encodeStatement([]) } };
        }
        if (format === "basic") {
            return { statement: { format: "packed", members: await this.#encodeBasic(toSign, isBad) } };
        }
        const { algorithm } = privateKey;
        return algorithm ? { statement: { format: "packed", members: encodeStatement(
            [["alg", encodeNumber(algorithm)], ["sig", encodeBytes(await sign())]]) } } : {};
    }

    /** @param {Uint8Array} toSign @param {boolean} isBad */
    async #encodeBasic(toSign, isBad) {
        const [certificate, privateKey] = [CERTIFICATE, PRIVATE_KEY].map(
            (text) => /** @type {Uint8Array} */ (fromBase64(text)));
        const signature = await (isBad ? this.#privateKeys.signWithNewKey(toSign) : this.#privateKeys.signWithPkcs8(privateKey, toSign));
        return encodeStatement([["alg", encodeNumber(ES256)], ["sig", encodeBytes(signature)],
            ["x5c", encodeArray([encodeBytes(certificate)])]]);
    }

    /**
     * Completes a credential's JSON from the core's client: the public key and the extension results.
     * @param {any} json
     */
    async adapt(json) {
        const pageId = decodeBase64url(json.id);
        const id = this.#metadata.coreId(pageId);
        const privateKey = this.#privateKey(id);
        const kept = this.#metadata.extensions(id);
        if (this.#ceremony.name === "create" && privateKey.algorithm) {
            const { spki } = await this.#privateKeys.exportPublicKey(privateKey);
            Object.assign(json.response, { publicKey: toBase64url(spki), publicKeyAlgorithm: privateKey.algorithm });
        }
        const results = this.#ceremony.name === "create"
            ? await makeRegistrationResults(kept, this.extensions, this.#privateKeys, id)
            : await makeSignInResults(kept, this.extensions, this.#privateKeys, { id, pageId });
        Object.assign(json.clientExtensionResults, results);
    }
}
