// Implements the Python methods and built-in functions that the rules of the conformance tests call, after their
// translation to JavaScript by translate.py. Extends `globalThis.hidlogPython`.
"use strict";

(() => {
    const $ = globalThis.hidlogPython;
    const {
        Bytes, Dict, Match, Object: PyObject, PyException, PySet, Tuple, Type, bytes, makeDict, eq, parseHex, isTruthy,
        isInteger, getItem, iter, toKey, toLatin1, len, listCharacters, lt, getTypeName, pairs, toIndex, setItem, defineError,
        makeSet, getSlice, toSmallNumber, toInteger, makeTypeError, AttributeError, IndexError, KeyError,
        UnicodeDecodeError, ValueError,
    } = $;

    // ---- strings

    const repr = (value) => {
        const name = getTypeName(value);
        if (name === "NoneType" || name === "bool") {
            return { true: "True", false: "False" }[String(value)] ?? "None";
        }
        if (name === "str") {
            const quote = value.includes("'") && !value.includes('"') ? '"' : "'";
            return quote + value.replaceAll("\\", "\\\\").replaceAll(quote, `\\${quote}`) + quote;
        }
        if (name === "bytes") {
            const escaped = (letter) => `\\x${letter.charCodeAt(0).toString(16).padStart(2, "0")}`;
            return `b'${value.letters.replace(/[^ -~]/g, escaped)}'`;
        }
        if (name === "list" || name === "tuple") {
            const inside = value.map(repr).join(", ");
            return name === "list" ? `[${inside}]` : `(${inside}${value.length === 1 ? "," : ""})`;
        }
        if (name === "dict") {
            return `{${pairs(value).map(([key, entry]) => `${repr(key)}: ${repr(entry)}`).join(", ")}}`;
        }
        return value instanceof PyException ? `${name}(${value.args.map(repr).join(", ")})` : String(value);
    };

    const str = (value) => {
        if (value instanceof PyException) {
            return value.args.length === 1 ? (value instanceof KeyError ? repr(value.args[0]) : str(value.args[0])) : repr(value.args);
        }
        return typeof value === "string" ? value : repr(value);
    };

    const format = (value, how) => {
        const found = /^0(\d+)x$/.exec(how);
        if (how === "") {
            return str(value);
        }
        if (!found || !isInteger(value)) {
            throw new ValueError(`Unknown format code '${how}' for object of type '${getTypeName(value)}'`);
        }
        return toInteger(value).toString(16).padStart(Number(found[1]), "0");
    };

    const encoder = new TextEncoder();
    const decoder = new TextDecoder("utf-8", { fatal: true, ignoreBOM: true });
    const fromLatin1 = (value) => value.letters;

    const decodeUtf8 = (value) => {
        try {
            return decoder.decode(value.data);
        } catch {
            throw new UnicodeDecodeError("utf-8");
        }
    };

    const pad = (value, width, filler) => {
        const rest = Math.max(0, Number(width) - value.data.length);
        return bytes([...value.data, ...new Uint8Array(rest).fill(filler.data[0])]);
    };

    const parseHexText = (text) => {
        const digits = text.replace(/\s/g, "");
        if (digits.length % 2 || /[^0-9a-fA-F]/.test(digits)) {
            throw new ValueError("non-hexadecimal number found in fromhex()");
        }
        return parseHex(digits);
    };

    const fromBytes = (value) => (value.data.length < 7
        ? value.data.reduce((sum, byte) => sum * 256 + byte, 0)
        : toSmallNumber(BigInt(`0x0${value.digits}`)));

    const partition = (value, mark, make) => {
        const at = value.indexOf(mark);
        const parts = at < 0 ? [value, "", ""] : [value.slice(0, at), mark, value.slice(at + mark.length)];
        return Tuple.from(parts.map(make));
    };

    const toBytes = (value, size, order) => {
        const digits = BigInt(value).toString(16).padStart(Number(size) * 2, "0");
        if (digits.length > Number(size) * 2) {
            throw new (defineError("OverflowError"))("int too big to convert");
        }
        const made = parseHex(digits);
        return order === "little" ? bytes([...made.data].reverse()) : made;
    };

    const identity = (value) => value;
    const sortItems = (items, key) => {
        const keyed = [...items].map((value) => [key ? apply(key, [value]) : value, value]);
        return keyed.sort(([a], [b]) => (lt(a, b) ? -1 : lt(b, a) ? 1 : 0)).map(([, value]) => value);
    };

    // The methods of Python's built-in types.
    const METHODS = {
        dict: {
            get: (self, key, other = null) => (self.kept.get(toKey(key)) ?? [key, other])[1],
            items: (self) => pairs(self).map((pair) => Tuple.from(pair)),
            keys: (self) => makeSet(iter(self)),
            values: (self) => pairs(self).map(([, value]) => value),
            setdefault: (self, key, value = null) => {
                if (!self.kept.has(toKey(key))) {
                    setItem(self, key, value);
                }
                return getItem(self, key);
            },
            pop: (self, key, ...other) => {
                if (!self.kept.has(toKey(key)) && other.length) {
                    return other[0];
                }
                const found = getItem(self, key);
                self.kept.delete(toKey(key));
                return found;
            },
            update: (self, other) => {
                const given = other instanceof Dict ? pairs(other) : [...iter(other)];
                given.forEach(([key, value]) => setItem(self, key, value));
                return null;
            },
            clear: (self) => self.kept.clear() ?? null,
        },
        set: {
            add: (self, value) => self.kept.set(toKey(value), value) && null,
            clear: (self) => self.kept.clear() ?? null,
            update: (self, other) => [...iter(other)].forEach((value) => self.kept.set(toKey(value), value)) ?? null,
        },
        list: {
            append: (self, value) => self.push(value) && null,
            index: (self, value) => {
                const at = self.findIndex((one) => eq(one, value));
                if (at < 0) {
                    throw new ValueError(`${repr(value)} is not in list`);
                }
                return at;
            },
            pop: (self, place = -1) => self.splice(toIndex(self.length, place), 1)[0],
            remove: (self, value) => self.splice(METHODS.list.index(self, value), 1) && null,
            sort: (self, words = {}) => self.splice(0, self.length, ...sortItems(self, words.key)) && null,
        },
        str: {
            join: (self, parts) => [...iter(parts)].join(self),
            split: (self, mark) => self.split(mark),
            partition: (self, mark) => partition(self, mark, identity),
            startswith: (self, front) => self.startsWith(front),
            endswith: (self, end) => self.endsWith(end),
            lower: (self) => self.toLowerCase(),
            encode: (self) => new Bytes(encoder.encode(self)),
            replace: (self, old, made) => self.replaceAll(old, made),
        },
        bytes: {
            hex: (self) => self.digits,
            decode: decodeUtf8,
            startswith: (self, front) => eq(getSlice(self, 0, front.data.length), front),
            ljust: (self, width, filler) => pad(self, width, filler),
            split: (self, mark) => fromLatin1(self).split(fromLatin1(mark)).map(toLatin1),
            partition: (self, mark) => partition(fromLatin1(self), fromLatin1(mark), toLatin1),
            join: (self, parts) => toLatin1([...iter(parts)].map(fromLatin1).join(fromLatin1(self))),
        },
        int: { to_bytes: toBytes },
        tuple: { index: (self, value) => METHODS.list.index(self, value) },
    };

    // ---- calls

    /** Adds keyword arguments to the positional arguments, at the positions of their parameters. */
    const bindArguments = (names, words, named) => {
        const found = [...words];
        for (const [name, value] of Object.entries(named)) {
            found[names.indexOf(name)] = value;
        }
        return found;
    };

    const apply = (what, words, named = undefined) => {
        if (what instanceof Type) {
            return what.make(...words);
        }
        if (typeof what !== "function") {
            throw makeTypeError(`'${getTypeName(what)}' object is not callable`);
        }
        if (what.prototype instanceof PyObject) {
            let owner = what;
            while (named && !owner.$names?.__init__) {
                owner = Object.getPrototypeOf(owner);
            }
            return new what(...(named ? bindArguments(owner.$names.__init__, words, named) : words));
        }
        return what(...(named ? bindArguments(what.$names ?? [], words, named) : words));
    };

    const makeAttributeError = (object, name) => new AttributeError(`'${getTypeName(object)}' object has no attribute '${name}'`);

    const getMember = (self, name) => {
        const found = self[name];
        if (found === undefined) {
            throw makeAttributeError(self, name);
        }
        return typeof found === "function" && !Object.hasOwn(self, name) ? found.bind(self) : found;
    };

    const getAttribute = (object, name) => {
        if (object instanceof PyObject || object instanceof Type || object?.$isModule) {
            return getMember(object, name);
        }
        const found = METHODS[getTypeName(object)]?.[name];
        if (!found) {
            throw makeAttributeError(object, name);
        }
        return (...words) => found(object, ...words);
    };

    /** The parameter names of a method, for keyword arguments. */
    const findParameters = (object, name) => {
        let owner = object.constructor;
        while (!owner.$names?.[name]) {
            owner = Object.getPrototypeOf(owner);
        }
        return owner.$names[name];
    };

    const call = (object, name, words, named = undefined) => {
        if (object instanceof PyObject && !Object.hasOwn(object, name)) {
            if (typeof object[name] !== "function") {
                return apply(getMember(object, name), words, named);
            }
            return object[name](...(named ? bindArguments(findParameters(object, name), words, named) : words));
        }
        if (object instanceof PyObject || object instanceof Type || object?.$isModule) {
            return apply(object.$isModule || object instanceof PyObject ? object[name] : object.statics[name], words, named);
        }
        const found = METHODS[getTypeName(object)]?.[name];
        if (!found) {
            throw makeAttributeError(object, name);
        }
        return found(object, ...words, ...(named ? [named] : []));
    };

    const isinstance = (value, kind) => {
        if (Array.isArray(kind)) {
            return kind.some((one) => isinstance(value, one));
        }
        return kind instanceof Type ? kind.check(value) : value instanceof kind;
    };

    // ---- built-in functions

    const types = {
        bool: new Type("bool", (value = false) => isTruthy(value)),
        int: new Type("int", (value) => toSmallNumber(BigInt(value instanceof Bytes ? fromLatin1(value) : value)), isInteger),
        str: new Type("str", (value = "") => str(value)),
        bytes: new Type("bytes", (value = 0) => (isInteger(value) ? new Bytes(new Uint8Array(Number(value))) : bytes(iter(value)))),
        list: new Type("list", (value = []) => [...iter(value)]),
        tuple: new Type("tuple", (value = []) => Tuple.from(iter(value))),
        dict: new Type("dict", (value = []) => makeDict(value instanceof Dict ? pairs(value) : [...iter(value)])),
        set: new Type("set", (value = []) => makeSet(iter(value))),
    };
    Object.assign(types.int, { statics: { from_bytes: fromBytes } });
    Object.assign(types.bytes, { statics: { fromhex: parseHexText } });

    const makeExtremum = (name, isBetter) => (...words) => {
        const items = words.length === 1 ? [...iter(words[0])] : words;
        if (!items.length) {
            throw new ValueError(`${name}() arg is an empty sequence`);
        }
        return items.reduce((found, value) => (isBetter(value, found) ? value : found));
    };

    const takeFirst = (items, ...other) => {
        for (const value of items) {
            return value;
        }
        if (!other.length) {
            throw new (defineError("StopIteration"))();
        }
        return other[0];
    };

    /** A range, whose values are computed on demand. */
    class Range {
        constructor(low, high) {
            Object.assign(this, { low, high });
        }

        * [Symbol.iterator]() {
            for (let at = this.low; at < this.high; at += 1) {
                yield at;
            }
        }
    }

    const makeRange = (from, to = undefined) =>
        (to === undefined ? new Range(0, Number(from)) : new Range(Number(from), Number(to)));

    const zipIterables = (...lists) => {
        const all = lists.map((list) => [...iter(list)]);
        const [shortest] = all.map((list) => list.length).sort((a, b) => a - b);
        return Array.from({ length: shortest }, (_, at) => Tuple.from(all.map((list) => list[at])));
    };

    const isAnyTrue = (items) => {
        for (const value of iter(items)) {
            if (isTruthy(value)) {
                return true;
            }
        }
        return false;
    };

    const areAllTrue = (items) => {
        for (const value of iter(items)) {
            if (!isTruthy(value)) {
                return false;
            }
        }
        return true;
    };

    const builtins = {
        ...types, len, isinstance, repr, range: makeRange, zip: zipIterables, KeyError, ValueError, IndexError, AttributeError, UnicodeDecodeError,
        TypeError: $.TypeError,
        Exception: PyException,
        any: isAnyTrue,
        all: areAllTrue,
        max: makeExtremum("max", (a, b) => lt(b, a)),
        min: makeExtremum("min", (a, b) => lt(a, b)),
        sum: (items) => [...iter(items)].reduce((sum, value) => $.add(sum, value), 0),
        next: takeFirst,
        map: (f, items) => [...iter(items)].map((value) => apply(f, [value])),
        enumerate: (items, from = 0) => [...iter(items)].map((value, at) => Tuple.of(at + from, value)),
        sorted: (items) => sortItems(iter(items), null),
        abs: (value) => (lt(value, 0) ? $.sub(0, value) : toInteger(value)),
        ord: (value) => value.codePointAt(0),
        getattr: (value, name) => getMember(value, name),
        TypeVar: () => null,
    };

    // ---- modules of Python's standard library

    const compilePattern = (pattern) => ({
        $isModule: true,
        fullmatch: (data) => {
            const found = new RegExp(`^(?:${fromLatin1(pattern)})$`, "s").exec(fromLatin1(data));
            return found ? new Match(found) : null;
        },
    });

    const HIDDEN_CATEGORIES = ["Cc", "Cf", "Cs", "Co", "Cn", "Zl", "Zp"];
    const CATEGORIES = HIDDEN_CATEGORIES.map((name) => [name, new RegExp(`^\\p{${name}}$`, "u")]);
    const getCategory = (letter) => (CATEGORIES.find(([, pattern]) => pattern.test(letter)) ?? ["other"])[0];
    const makeSha256 = (data) => ({ $isModule: true, digest: () => new Bytes(globalThis.hidlogSha256(data.data)) });
    /** @type {Record<string, () => any>} */
    const modules = {
        re: () => ({ compile: compilePattern }),
        hashlib: () => ({ sha256: makeSha256 }),
        unicodedata: () => ({ category: getCategory }),
        json: () => ({}),
        "xml.sax.saxutils": () => ({}),
    };
    const loadedModules = new Map();

    /** The exports of a module, which is executed when it is first imported. */
    const module = (name) => {
        if (!loadedModules.has(name)) {
            loadedModules.set(name, { ...modules[name](), $isModule: true });
        }
        return loadedModules.get(name);
    };

    /** Returns a function that caches the results for the last `size` arguments, as functools.lru_cache does. */
    const makeCached = (make, size) => {
        const kept = new Map();
        return (...words) => {
            const name = words.map(toKey).join();
            const found = kept.has(name) ? kept.get(name) : make(...words);
            kept.delete(name);
            kept.set(name, found);
            if (kept.size > size) {
                kept.delete(kept.keys().next().value);
            }
            return found;
        };
    };

    const assertTrue = (isSo) => {
        if (!isSo) {
            throw new Error("internal error: an assert statement of the rules failed");
        }
    };

    Object.assign($, { apply, getAttribute, builtins, call, format, assertTrue, isinstance, makeCached, module, modules, getMember, repr });
})();
