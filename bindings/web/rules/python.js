// Implements the Python values and operators that the rules of the conformance tests use. The output of translate.py
// calls these functions. This script sets `globalThis.hidlogPython`.
//
// Safe integers are numbers, larger ones BigInts. None is null. Strings, booleans and lists are JavaScript's. Byte
// strings, tuples, dictionaries and sets are classes.
"use strict";

(() => {
    const HEX_BYTES = Array.from({ length: 256 }, (_, byte) => byte.toString(16).padStart(2, "0"));

    /** Converts each byte to a character, in chunks, because a call has a limited number of arguments. */
    const toCharacters = (data) => {
        let text = "";
        for (let at = 0; at < data.length; at += 8192) {
            text += String.fromCharCode.apply(null, data.subarray(at, at + 8192));
        }
        return text;
    };

    class Bytes {
        /** @param {Uint8Array} data */
        constructor(data) {
            this.data = data;
            /** @type {string | undefined} */
            this.kept = undefined;
        }

        get digits() {
            let text = "";
            for (const byte of this.data) {
                text += HEX_BYTES[byte];
            }
            return text;
        }

        /** A character per byte. */
        get letters() {
            this.kept ??= toCharacters(this.data);
            return this.kept;
        }
    }

    class Tuple extends Array {}

    /** A map with keys compared by value, in insertion order. */
    class Dict {
        constructor() {
            this.kept = new Map();
        }
    }

    class PySet {
        constructor() {
            this.kept = new Map();
        }
    }

    /** The base class of translated classes. */
    class PyObject {
        constructor(...words) {
            /** @type {any} */
            const self = this;
            self.__init__?.(...words);
        }
    }

    class PyException extends PyObject {
        __init__(...words) {
            this.args = Tuple.from(words);
        }
    }

    /** The match of a pattern: the groups by number, bytes or null. */
    class Match {
        constructor(found) {
            this.found = found;
        }
    }

    const defineError = (name, base = PyException) => ({ [name]: class extends base {} })[name];
    const LookupError = defineError("LookupError");
    const KeyError = defineError("KeyError", LookupError);
    const IndexError = defineError("IndexError", LookupError);
    const ValueError = defineError("ValueError");
    const UnicodeDecodeError = defineError("UnicodeDecodeError", ValueError);
    const TypeError_ = defineError("TypeError");
    const AttributeError = defineError("AttributeError");

    // ---- types

    const isInteger = (value) => typeof value === "number" || typeof value === "bigint" || typeof value === "boolean";
    const toInteger = (value) => (typeof value === "boolean" ? Number(value) : value);

    /** The name of a value's type. */
    const getTypeName = (value) => {
        if (value === null || value === undefined) {
            return "NoneType";
        }
        const plain = { boolean: "bool", number: "int", bigint: "int", string: "str", function: "function" }[typeof value];
        if (plain) {
            return plain;
        }
        const classes = [[Bytes, "bytes"], [Tuple, "tuple"], [Dict, "dict"], [PySet, "set"], [Type, "type"]];
        const found = classes.find(([kind]) => value instanceof kind);
        return found ? found[1] : Array.isArray(value) ? "list" : value.constructor.name;
    };

    /** A built-in type of Python: the constructor, and a function that checks whether a value is an instance. */
    class Type {
        constructor(name, make, check = (value) => getTypeName(value) === name) {
            Object.assign(this, { name, make, check, __name__: name });
        }
    }

    const makeTypeError = (text) => new TypeError_(text);

    // ---- values

    const objects = new WeakMap();
    let count = 0;

    /** The key of a value in maps and sets: the same for equal values. */
    const toKey = (value) => {
        const name = getTypeName(value);
        if (isInteger(value)) {
            return `i${toInteger(value)}`;
        }
        if (name === "str") {
            return `s${value}`;
        }
        if (name === "bytes") {
            return `b${value.letters}`;
        }
        if (name === "tuple") {
            return `(${value.map(toKey).join()})`;
        }
        if (value === null) {
            return "n";
        }
        if (["list", "dict", "set"].includes(name)) {
            throw makeTypeError(`unhashable type: '${name}'`);
        }
        objects.set(value, objects.get(value) ?? (count += 1));
        return `o${objects.get(value)}`;
    };

    const makeDict = (pairs) => {
        const made = new Dict();
        pairs.forEach(([key, value]) => setItem(made, key, value));
        return made;
    };

    const makeSet = (items) => {
        const made = new PySet();
        for (const item of items) {
            made.kept.set(toKey(item), item);
        }
        return made;
    };

    const pairs = (dict) => [...dict.kept.values()];
    /** The characters of a string. */
    const listCharacters = (text) => Array.from(text);
    const bytes = (data) => new Bytes(Uint8Array.from(data));

    const parseHex = (digits) => {
        const data = new Uint8Array(digits.length / 2);
        for (let at = 0; at < data.length; at += 1) {
            data[at] = parseInt(digits.slice(at * 2, at * 2 + 2), 16);
        }
        return new Bytes(data);
    };

    const toLatin1 = (text) => {
        const data = new Uint8Array(text.length);
        for (let at = 0; at < text.length; at += 1) {
            data[at] = text.charCodeAt(at);
        }
        return new Bytes(data);
    };

    const iter = (value) => {
        if (value instanceof Dict) {
            return pairs(value).map(([key]) => key);
        }
        if (value instanceof PySet) {
            return [...value.kept.values()];
        }
        if (value instanceof Bytes) {
            return value.data;
        }
        if (typeof value === "string") {
            return listCharacters(value);
        }
        if (value === null || typeof value !== "object" || !value[Symbol.iterator]) {
            throw makeTypeError(`'${getTypeName(value)}' object is not iterable`);
        }
        return value;
    };

    const len = (value) => {
        if (value instanceof Dict || value instanceof PySet) {
            return value.kept.size;
        }
        if (value instanceof Bytes) {
            return value.data.length;
        }
        if (typeof value === "string") {
            return listCharacters(value).length;
        }
        if (Array.isArray(value)) {
            return value.length;
        }
        throw makeTypeError(`object of type '${getTypeName(value)}' has no len()`);
    };

    const isTruthy = (value) => {
        if (value === null || value === undefined) {
            return false;
        }
        if (isInteger(value)) {
            return Boolean(value);
        }
        const isSized = Array.isArray(value) || [Dict, PySet, Bytes].some((kind) => value instanceof kind);
        return typeof value === "string" ? value !== "" : !isSized || len(value) > 0;
    };

    const equalItems = (a, b) => a.length === b.length && a.every((item, place) => eq(item, b[place]));

    const eq = (a, b) => {
        if (isInteger(a) && isInteger(b)) {
            return toInteger(a) == toInteger(b);
        }
        const name = getTypeName(a);
        if (a === b || name !== getTypeName(b)) {
            return a === b;
        }
        if (name === "bytes") {
            return a.data.length === b.data.length && a.data.every((byte, at) => byte === b.data[at]);
        }
        if (name === "list" || name === "tuple") {
            return equalItems(a, b);
        }
        if (name === "dict" || name === "set") {
            const has = (key) => b.kept.has(key) && (name === "set" || eq(a.kept.get(key)[1], b.kept.get(key)[1]));
            return a.kept.size === b.kept.size && [...a.kept.keys()].every(has);
        }
        const fields = a?.constructor.$fields;
        return fields ? fields.every((field) => eq(a[field], b[field])) : false;
    };

    const lt = (a, b) => {
        if (isInteger(a) && isInteger(b)) {
            return toInteger(a) < toInteger(b);
        }
        if (getTypeName(a) !== getTypeName(b) || !["str", "bytes", "list", "tuple"].includes(getTypeName(a))) {
            throw makeTypeError(`'<' not supported between instances of '${getTypeName(a)}' and '${getTypeName(b)}'`);
        }
        const left = [...iter(a)];
        const right = [...iter(b)];
        const place = left.findIndex((item, at) => at >= right.length || !eq(item, right[at]));
        if (place < 0 || place >= right.length) {
            return place < 0 && left.length < right.length;
        }
        const isText = typeof a === "string";
        return isText ? left[place].codePointAt(0) < right[place].codePointAt(0) : lt(left[place], right[place]);
    };

    /** The operator <=, which for sets tests for a subset. */
    const le = (a, b) => {
        const isSets = a instanceof PySet && b instanceof PySet;
        return isSets ? [...a.kept.keys()].every((key) => b.kept.has(key)) : !lt(b, a);
    };

    const contains = (holder, value) => {
        if (holder instanceof Dict || holder instanceof PySet) {
            return holder.kept.has(toKey(value));
        }
        if (typeof holder === "string") {
            return holder.includes(value);
        }
        if (holder instanceof Bytes && value instanceof Bytes) {
            return holder.letters.includes(value.letters);
        }
        for (const item of iter(holder)) {
            if (eq(item, value)) {
                return true;
            }
        }
        return false;
    };

    // ---- numbers

    const toSmallNumber = (big) => {
        const number = Number(big);
        return Number.isSafeInteger(number) ? number : big;
    };

    /** Makes an operator for integers (with BigInts if numbers are not exact) and for other values. */
    const makeOperation = (sign, quick, exact, other) => (a, b) => {
        if (isInteger(a) && isInteger(b)) {
            const found = quick(Number(a), Number(b));
            return Number.isSafeInteger(found) && Number.isSafeInteger(Number(a)) && Number.isSafeInteger(Number(b))
                ? found
                : toSmallNumber(exact(BigInt(a), BigInt(b)));
        }
        const found = other?.(a, b);
        if (found === undefined) {
            throw makeTypeError(`unsupported operand type(s) for ${sign}: '${getTypeName(a)}' and '${getTypeName(b)}'`);
        }
        return found;
    };

    const concatBytes = (a, b) => {
        const name = getTypeName(a);
        if (name !== getTypeName(b)) {
            return undefined;
        }
        if (name === "bytes") {
            const data = new Uint8Array(a.data.length + b.data.length);
            data.set(a.data);
            data.set(b.data, a.data.length);
            return new Bytes(data);
        }
        if (name === "tuple") {
            return Tuple.from([...a, ...b]);
        }
        return name === "str" ? a + b : name === "list" ? [...a, ...b] : undefined;
    };

    const multiply = (a, b) => {
        const many = (value, number) => Array.from({ length: Math.max(0, Number(number)) }).flatMap(() => [...iter(value)]);
        if (a instanceof Bytes && isInteger(b)) {
            return bytes(many(a, b));
        }
        return typeof a === "string" && isInteger(b) ? a.repeat(Math.max(0, Number(b))) : undefined;
    };

    const makeSetOperation = (choose) => (a, b) =>
        (a instanceof PySet && b instanceof PySet ? makeSet(choose([...iter(a)], b)) : undefined);
    const shared = makeSetOperation((items, b) => items.filter((value) => contains(b, value)));
    const noQuickResult = () => NaN;
    const makeBitOperation = (quick) => (a, b) => (a >= 0 && b >= 0 && a < 2 ** 31 && b < 2 ** 31 ? quick(a, b) : NaN);
    const floorDiv = (a, b) => a / b - ((a % b !== 0n && (a < 0n) !== (b < 0n)) ? 1n : 0n);

    const numbers = {
        add: makeOperation("+", (a, b) => a + b, (a, b) => a + b, concatBytes),
        sub: makeOperation("-", (a, b) => a - b, (a, b) => a - b, makeSetOperation((items, b) => items.filter((value) => !contains(b, value)))),
        mul: makeOperation("*", (a, b) => a * b, (a, b) => a * b, multiply),
        floorDiv: makeOperation("//", noQuickResult, floorDiv, undefined),
        mod: makeOperation("%", noQuickResult, (a, b) => a - b * floorDiv(a, b), undefined),
        pow: makeOperation("**", noQuickResult, (a, b) => a ** b, undefined),
        shiftLeft: makeOperation("<<", noQuickResult, (a, b) => a << b, undefined),
        shiftRight: makeOperation(">>", makeBitOperation((a, b) => (b < 31 ? a >> b : 0)), (a, b) => a >> b, undefined),
        and: makeOperation("&", makeBitOperation((a, b) => a & b), (a, b) => a & b, shared),
        or: makeOperation("|", makeBitOperation((a, b) => a | b), (a, b) => a | b, makeSetOperation((items, b) => [...items, ...iter(b)])),
        xor: makeOperation("^", makeBitOperation((a, b) => a ^ b), (a, b) => a ^ b, undefined),
    };

    // ---- items and slices

    const toIndex = (length, place) => {
        const at = place < 0 ? length + place : place;
        return at >= 0 && at < length ? at : -1;
    };

    const getItem = (holder, place) => {
        if (holder instanceof Dict) {
            const found = holder.kept.get(toKey(place));
            if (!found) {
                throw new KeyError(place);
            }
            return found[1];
        }
        if (holder instanceof Match) {
            return holder.found[place] === undefined ? null : toLatin1(holder.found[place]);
        }
        const isList = Array.isArray(holder) || holder instanceof Bytes || typeof holder === "string";
        if (!isList) {
            throw makeTypeError(`'${getTypeName(holder)}' object is not subscriptable`);
        }
        if (!isInteger(place)) {
            throw makeTypeError(`${getTypeName(holder)} indices must be integers or slices, not ${getTypeName(place)}`);
        }
        const items = typeof holder === "string" ? listCharacters(holder) : holder instanceof Bytes ? holder.data : holder;
        const at = toIndex(items.length, toInteger(place));
        if (at < 0) {
            throw new IndexError("index out of range");
        }
        return items[at];
    };

    const getSlice = (holder, low, high) => {
        const from = low === null ? 0 : Number(low);
        const to = high === null ? undefined : Number(high);
        if (holder instanceof Bytes) {
            return new Bytes(holder.data.slice(from, to));
        }
        if (typeof holder === "string") {
            return listCharacters(holder).slice(from, to).join("");
        }
        if (!Array.isArray(holder)) {
            throw makeTypeError(`'${getTypeName(holder)}' object is not subscriptable`);
        }
        return holder.slice(from, to);
    };

    const setItem = (holder, key, value) => {
        if (holder instanceof Dict) {
            const known = toKey(key);
            // As in Python, an existing key is kept.
            holder.kept.set(known, [holder.kept.get(known)?.[0] ?? key, value]);
        } else {
            holder[toIndex(holder.length, key)] = value;
        }
    };

    const deleteItem = (holder, key) => {
        if (!holder.kept.delete(toKey(key))) {
            throw new KeyError(key);
        }
    };

    const unpackItems = (value, size) => {
        const items = Array.isArray(value) ? value : [...iter(value)];
        if (items.length !== size) {
            throw new ValueError(`${items.length} values to unpack, expected ${size}`);
        }
        return items;
    };

    globalThis.hidlogPython = {
        ...numbers, AttributeError, Bytes, Dict, IndexError, KeyError, Match, Object: PyObject, PyException, PySet,
        Tuple, Type, TypeError: TypeError_, UnicodeDecodeError, ValueError, bytes, makeDict, eq, contains, parseHex,
        isTruthy, isInteger, getItem, iter, toKey, toLatin1, le, len, listCharacters, lt, getTypeName, pairs, toIndex, setItem,
        defineError, deleteItem, makeSet, getSlice, toSmallNumber, unpackItems, toInteger, makeTypeError,
    };
})();
