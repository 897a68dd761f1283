// WebIDL conversions of arguments, with Chromium's error messages. The arguments of a converter are a value and the
// prefix of an error message.
import { copyBytes, isBuffer, getTypeName } from "./bytes.js";

/** @typedef {(value: any, where: string) => any} Converter */
/** @typedef {{ convert: Converter, isRequired?: boolean, from?: string, fallback?: any }} Member */

/**
 * A required member. `from` names the base dictionary that defines it, if any.
 * @param {Converter} convert @param {string} [from]
 */
export const required = (convert, from = undefined) => ({ convert, from, isRequired: true });

/**
 * An optional member, with a default if one is passed.
 * @param {Converter} convert @param {any[]} fallback
 */
export const optional = (convert, ...fallback) => (fallback.length ? { convert, fallback: fallback[0] } : { convert });

const isObject = (/** @type {unknown} */ value) => (typeof value === "object" && value !== null) || typeof value === "function";

/** @type {Converter} */
export const text = (value) => `${value}`;

/** @type {Converter} */
export const boolean = (value) => Boolean(value);

/** @type {Converter} */
export const long = (value) => +value | 0;

/** @type {Converter} */
export const unsignedLong = (value) => +value >>> 0;

/**
 * Copies the bytes of a buffer.
 * @type {Converter}
 */
export const buffer = (value, where) => {
    if (!isBuffer(value)) {
        throw new TypeError(`${where}The provided value is not of type '(ArrayBuffer or ArrayBufferView)'.`);
    }
    return copyBytes(value);
};

/** @type {Converter} */
export const abortSignal = (value, where) => {
    if (getTypeName(value) !== "AbortSignal") {
        throw new TypeError(`${where}Failed to convert value to 'AbortSignal'.`);
    }
    return value;
};

/** @param {string} type @param {string[]} words @returns {Converter} */
export const enumeration = (type, words) => (value, where) => {
    const word = `${value}`;
    if (!words.includes(word)) {
        throw new TypeError(`${where}The provided value '${word}' is not a valid enum value of type ${type}.`);
    }
    return word;
};

/** @param {Converter} convert @returns {Converter} */
export const sequence = (convert) => (value, where) => {
    if (!isObject(value)) {
        throw new TypeError(`${where}The provided value cannot be converted to a sequence.`);
    }
    if (typeof value[Symbol.iterator] !== "function") {
        throw new TypeError(`${where}The object must have a callable @@iterator property.`);
    }
    return Array.from(value, (item) => convert(item, where));
};

/** @param {Converter} convert of the values @returns {Converter} */
export const record = (convert) => (value, where) => {
    if (!isObject(value)) {
        throw new TypeError(`${where}Only objects can be converted to record<K,V> types`);
    }
    return Object.fromEntries(Object.entries(value).map(([name, inner]) => [name, convert(inner, where)]));
};

/** @param {string} type @param {Record<string, Member>} members in the order of conversion @returns {Converter} */
export const dictionary = (type, members) => {
    const isNullable = !Object.values(members).some((member) => member.isRequired);
    return (value, where) => {
        if (!isObject(value) && !(isNullable && (value === null || value === undefined))) {
            throw new TypeError(`${where}The provided value is not of type '${type}'.`);
        }
        /** @type {Record<string, any>} */
        const made = {};
        for (const [name, { convert, isRequired, from = type, ...rest }] of Object.entries(members)) {
            const member = value?.[name];
            const inner = `${where}Failed to read the '${name}' property from '${from}': `;
            if (member !== undefined) {
                made[name] = convert(member, inner);
            } else if (isRequired) {
                throw new TypeError(`${inner}Required member is undefined.`);
            } else if ("fallback" in rest) {
                made[name] = Array.isArray(rest.fallback) ? [...rest.fallback] : rest.fallback;
            }
        }
        return made;
    };
};
