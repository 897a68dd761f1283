// Checks of arguments. An unknown name, such as a typo, is rejected with the valid names.

/** @param {unknown} value */
const describeValue = (value) => (typeof value === "function" ? "a function" : JSON.stringify(value) ?? String(value));

/**
 * Rejects an unknown name.
 * @param {string} what @param {string} name @param {readonly string[]} names
 */
export const checkName = (what, name, names) => {
    if (!names.includes(name)) {
        throw new TypeError(`unknown ${what} ${JSON.stringify(name)}; expected one of ${names.join(", ")}`);
    }
};

/**
 * Rejects an invalid value.
 * @param {string} name @param {unknown} value @param {boolean} isValid @param {string} expected what it must be
 */
export const checkType = (name, value, isValid, expected) => {
    if (!isValid) {
        throw new TypeError(`${name} must be ${expected}, not ${describeValue(value)}`);
    }
};

/**
 * Rejects unknown members.
 * @param {string} what @param {any} object @param {readonly string[]} names
 */
export const checkMembers = (what, object, names) => {
    checkType(`the ${what}s`, object, typeof object === "object" && object !== null, "an object");
    Object.keys(object).forEach((name) => checkName(what, name, names));
};

const warned = new Set();

/**
 * Warns once about an old name, which the next version removes.
 * @param {string} old @param {string} name
 */
export const warnRenamed = (old, name) => {
    if (!warned.has(old)) {
        warned.add(old);
        globalThis.console?.warn(`hidlogKey: ${old} is deprecated; use ${name}`);
    }
};

/**
 * Returns options with old names replaced by the new ones, and warns once about each old name.
 * @param {Record<string, any>} options @param {Record<string, string>} names the new names, by the old ones
 */
export const renameOptions = (options, names) =>
    Object.fromEntries(Object.entries(options).map(([name, value]) => {
        if (Object.hasOwn(names, name)) {
            warnRenamed(name, names[name]);
        }
        return [Object.hasOwn(names, name) ? names[name] : name, value];
    }));

/**
 * Adds deprecated member names to an object, which log a warning when used. They are not enumerable, so JSON has only
 * the new names.
 * @template {object} T @param {T} object @param {Record<string, string>} names the new names, by the old ones
 */
export const addOldNames = (object, names) => {
    for (const [old, name] of Object.entries(names)) {
        Object.defineProperty(object, old, {
            configurable: true,
            get() {
                warnRenamed(old, name);
                return this[name];
            },
        });
    }
    return object;
};
