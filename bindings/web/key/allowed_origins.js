// Restricts the pages in which a key can be installed to those of tests, so that the key never replaces a real
// authenticator by accident.
import { checkType } from "./argument_checks.js";
import { makeNotAllowedError } from "./errors.js";

const TEST_HOSTS = ["localhost", "127.0.0.1"];
const TEST_DOMAINS = [".localhost", ".test", ".example"];
const ALLOWED_TEXT = "localhost, 127.0.0.1, *.localhost, *.test, *.example and file pages";

let hasWarned = false;

/**
 * The origin of this page. A frame without its own URL (about:blank, srcdoc) has the origin of the page that created
 * it. "null" for an opaque origin, undefined without a page.
 */
export const getPageOrigin = () => {
    const { location, origin } = globalThis;
    return location?.protocol === "about:" ? origin : location?.origin;
};

/**
 * The origin of requests: the option `origin`, or the page's origin. Throws if the scheme is not http or https.
 * @param {unknown} option
 */
export const readOrigin = (option) => {
    const origin = option ?? getPageOrigin();
    if (origin === "null" && globalThis.location.protocol === "about:") {
        throw makeNotAllowedError("this frame has an opaque origin");
    }
    checkType("origin", origin, typeof origin === "string" && /^https?:\/\/./.test(origin),
        "an http or https origin, such as https://example.com; without a page, use the option origin of install");
    return /** @type {string} */ (origin);
};

/**
 * Whether a text is an origin. The origin of a scheme other than http and https is SCHEME://HOST.
 * @param {unknown} text
 */
const isOrigin = (text) => {
    try {
        const { origin, protocol, host } = new URL(/** @type {string} */ (text));
        return [origin, `${protocol}//${host}`].includes(/** @type {string} */ (text));
    } catch {
        return false;
    }
};

/** @param {unknown} allowed */
const checkOrigins = (allowed) => {
    const expected = 'an array of origins, such as ["https://staging.example.com"]';
    checkType("allowedOrigins", allowed, Array.isArray(allowed), expected);
    for (const entry of /** @type {unknown[]} */ (allowed)) {
        checkType("each of allowedOrigins", entry, isOrigin(entry), "an origin, such as https://a.example.com");
    }
};

/**
 * Whether an origin belongs to a test, such as localhost.
 * @param {string} origin
 */
const isTestOrigin = (origin) => {
    const { protocol, hostname } = new URL(origin);
    const isTestHost = TEST_HOSTS.includes(hostname) || TEST_DOMAINS.some((domain) => hostname.endsWith(domain));
    return /^https?:$/.test(protocol) && isTestHost;
};

/**
 * Rejects an origin that is not for tests, unless it is allowed.
 * @param {string} origin @param {string[]} allowed
 */
const checkOrigin = (origin, allowed) => {
    if (!allowed.includes(origin) && !(isOrigin(origin) && isTestOrigin(origin))) {
        throw new Error(`hidlogKey: ${origin} is not an allowed test origin. A test key grants user presence by`
            + ` itself, and the page can read its private keys. Allowed origins: ${ALLOWED_TEXT}. To allow this one,`
            + ` call install with allowedOrigins: [${JSON.stringify(origin)}]`);
    }
};

/**
 * Rejects a page, and the option `origin` of a page's key, unless the origin is a test origin or in `allowed`. Without
 * a page, as in node, every origin is allowed.
 * @param {unknown} [allowed] @param {unknown} [origin] the option `origin`
 */
export const checkPage = (allowed = [], origin = undefined) => {
    checkOrigins(allowed);
    const page = getPageOrigin();
    if (page === undefined) {
        return;
    }
    const list = /** @type {string[]} */ (allowed);
    const { protocol } = globalThis.location;
    // Pages opened from files are allowed, and so are frames with an opaque origin, to which browsers give no
    // credentials.
    if (protocol !== "file:" && !(protocol === "about:" && page === "null")) {
        checkOrigin(page, list);
    }
    if (typeof origin === "string") {
        checkOrigin(origin, list);
    }
};

/** Warns once in the page's console that a test key is installed. */
export const warnOfTestKey = () => {
    if (!hasWarned && globalThis.document) {
        hasWarned = true;
        globalThis.console?.warn("hidlogKey: a test key replaces navigator.credentials here. It grants user"
            + " presence as the test says, and the page can read its private keys.");
    }
};
