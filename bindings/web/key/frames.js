// Frames: the permissions policy, and the clientDataJSON of a cross-origin frame, which the core's client does not
// write.
import { encodeUtf8, toBase64url } from "./bytes.js";
import { makeDomError } from "./errors.js";

/** The origins of the ancestor frames, with the top-level origin last; null for a frame that cannot be accessed. */
const listAncestorOrigins = () => {
    const listed = globalThis.location?.ancestorOrigins;
    if (listed) {
        return Array.from(listed);
    }
    /** @type {(string | null)[]} */
    const origins = [];
    /** @type {Window | undefined} */
    let frame = globalThis.window;
    while (frame?.parent && frame.parent !== frame) {
        frame = frame.parent;
        try {
            origins.push(frame.location.origin);
        } catch {
            origins.push(null);
        }
    }
    return origins;
};

/**
 * The members crossOrigin and topOrigin of clientDataJSON.
 * @param {string} origin
 */
export const makeCrossOriginMembers = (origin) => {
    const origins = listAncestorOrigins();
    if (origins.every((ancestor) => ancestor === origin)) {
        return { crossOrigin: false };
    }
    // If the browser does not expose the top-level origin, use the referrer of a frame directly below the top-level
    // page.
    const referrer = origins.length === 1 && globalThis.document?.referrer;
    const topOrigin = origins.at(-1) ?? (referrer ? new URL(referrer).origin : undefined);
    return { crossOrigin: true, topOrigin };
};

/**
 * Rejects a cross-origin frame without permission, if the browser exposes its policy (document.featurePolicy).
 * @param {"create" | "get"} name @param {string} origin
 */
export const checkPolicy = (name, origin) => {
    const { featurePolicy: policy } = /** @type {any} */ (globalThis.document ?? {});
    const feature = `publickey-credentials-${name}`;
    if (makeCrossOriginMembers(origin).crossOrigin && policy && !policy.allowsFeature(feature)) {
        throw makeDomError("NotAllowedError", `The '${feature}' feature is not enabled in this document. Permissions `
            + "Policy may be used to delegate Web Authentication capabilities to cross-origin child frames.");
    }
};

/**
 * Encodes clientDataJSON.
 * @param {"create" | "get"} name @param {Uint8Array} challenge @param {string} origin
 * @param {{ crossOrigin: boolean, topOrigin?: string }} members
 */
export const encodeClientData = (name, challenge, origin, members) =>
    encodeUtf8(JSON.stringify({ type: `webauthn.${name}`, challenge: toBase64url(challenge), origin, ...members }));
