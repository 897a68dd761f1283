// Converts USB captures to logs: pcap and pcapng of usbmon (Linux) and USBPcap (Windows). The key is found by its
// packets. The comments in the logs are the same as those of `hidlog import` of the Python package, which reads more
// formats, and infers the caller's replies, which are not on the bus. Sets `globalThis.hidlogCaptures`.
"use strict";

(() => {
    const { KEEPALIVE_MS, PACKET_SIZE, toHex } = globalThis.hidlogBytes;
    /** @type {Record<string, [boolean, number]>} */
    const PCAP_FORMATS = { d4c3b2a1: [true, 1000], a1b2c3d4: [false, 1000], "4d3cb2a1": [true, 1e6], a1b23c4d: [false, 1e6] };
    const SECTION_HEADER = "0a0d0d0a";
    // Length of the header before the data of a USB transfer, by link type: two of usbmon, and USBPcap (its minimum).
    /** @type {Record<number, number>} */
    const HEAD_BYTES = { 189: 48, 220: 64, 249: 27 };
    const LINK_USBPCAP = 249;
    const TRANSFER_INTERRUPT = 1;
    const decoder = new TextDecoder("utf-8");

    /**
     * A frame of a capture, and the HID report of a key that a frame contains. `at` is the time in milliseconds, and
     * `isOwn` tells whether hidlog wrote the capture.
     * @typedef {{ at: number, link: number, isLittle: boolean, data: Uint8Array, comments: Uint8Array[], isOwn: boolean,
     *     number: number }} Frame
     * @typedef {{ where: string, isSent: boolean, packet: Uint8Array, at: number, status: number }} Report
     */

    /** @param {Uint8Array} bytes */
    const isCapture = (bytes) => {
        const front = toHex(bytes.subarray(0, 4));
        return front in PCAP_FORMATS || front === SECTION_HEADER;
    };

    /** @param {Uint8Array} bytes */
    const makeView = (bytes) => new DataView(bytes.buffer, bytes.byteOffset, bytes.byteLength);

    /**
     * The frames of a pcap file. A truncated last frame is left out.
     * @param {Uint8Array} bytes
     * @returns {Generator<Frame, void, void>}
     */
    function* readPcap(bytes) {
        const [isLittle, perMillisecond] = PCAP_FORMATS[toHex(bytes.subarray(0, 4))];
        const view = makeView(bytes);
        const link = bytes.length < 24 ? 0 : view.getUint32(20, isLittle) & 0xffff;
        for (let place = 24; place + 16 <= bytes.length; ) {
            const kept = view.getUint32(place + 8, isLittle);
            const seconds = view.getUint32(place, isLittle);
            const at = seconds * 1000 + Math.floor(view.getUint32(place + 4, isLittle) / perMillisecond);
            const data = bytes.subarray(place + 16, place + 16 + kept);
            place += 16 + kept;
            if (place <= bytes.length) {
                yield { at, link, isLittle, data, comments: [], isOwn: false, number: 0 };
            }
        }
    }

    /**
     * The options of a block: pairs of code and bytes.
     * @param {Uint8Array} body
     * @param {number} from
     * @param {boolean} isLittle
     * @returns {Generator<[number, Uint8Array], void, void>}
     */
    function* readOptions(body, from, isLittle) {
        const view = makeView(body);
        for (let place = from; place + 4 <= body.length; ) {
            const code = view.getUint16(place, isLittle);
            const length = view.getUint16(place + 2, isLittle);
            if (code === 0) {
                return;
            }
            yield [code, body.subarray(place + 4, place + 4 + length)];
            place += 4 + Math.ceil(length / 4) * 4;
        }
    }

    /** @param {[number, Uint8Array][]} options */
    const readResolution = (options) => {
        const found = options.find(([code]) => code === 9)?.[1]?.[0] ?? 6;
        return found & 0x80 ? 2 ** (found & 0x7f) : 10 ** found;
    };

    /**
     * The frames of a pcapng file, up to the first invalid or truncated block.
     * @param {Uint8Array} bytes
     * @returns {Generator<Frame, void, void>}
     */
    function* readPcapng(bytes) {
        let isLittle = true;
        let isOwn = false;
        /** @type {{ link: number, perSecond: number }[]} */
        let interfaces = [];
        for (let place = 0; place + 12 <= bytes.length; ) {
            const view = makeView(bytes);
            if (toHex(bytes.subarray(place, place + 4)) === SECTION_HEADER) {
                isLittle = view.getUint32(place + 8, true) === 0x1a2b3c4d;
                interfaces = [];
            }
            const kind = view.getUint32(place, isLittle);
            const length = view.getUint32(place + 4, isLittle);
            if (length < 12 || length % 4 || place + length > bytes.length) {
                return;
            }
            const body = bytes.subarray(place + 8, place + length - 4);
            const inside = makeView(body);
            place += length;
            if (kind === 0x0a0d0d0a) {
                const writer = [...readOptions(body, 16, isLittle)].find(([code]) => code === 4)?.[1];
                isOwn = decoder.decode(writer ?? new Uint8Array()).startsWith("hidlog");
            } else if (kind === 1 && body.length >= 8) {
                const perSecond = readResolution([...readOptions(body, 8, isLittle)]);
                interfaces.push({ link: inside.getUint16(0, isLittle), perSecond });
            } else if (kind === 6 && body.length >= 20) {
                const number = inside.getUint32(0, isLittle);
                const own = interfaces[number];
                const kept = inside.getUint32(12, isLittle);
                const ticks = inside.getUint32(4, isLittle) * 2 ** 32 + inside.getUint32(8, isLittle);
                const comments = [...readOptions(body, 20 + Math.ceil(kept / 4) * 4, isLittle)];
                if (own && 20 + kept <= body.length) {
                    yield {
                        at: Math.floor((ticks * 1000) / own.perSecond), link: own.link, isLittle, isOwn, number,
                        data: body.subarray(20, 20 + kept),
                        comments: comments.filter(([code]) => code === 1).map(([, text]) => text),
                    };
                }
            }
        }
    }

    /**
     * The HID report in a frame, or null if there is none.
     * @param {Frame} frame
     * @returns {Report | null}
     */
    const findReport = (frame) => {
        const { data, link, isLittle } = frame;
        if (data.length < (HEAD_BYTES[link] ?? Infinity)) {
            return null;
        }
        const view = makeView(data);
        const isUsbpcap = link === LINK_USBPCAP;
        const head = isUsbpcap ? view.getUint16(0, true) : HEAD_BYTES[link];
        const kind = isUsbpcap ? data[22] : data[9];
        const end = isUsbpcap ? data[21] : data[10];
        const isDone = isUsbpcap ? (data[16] & 1) === 1 : data[8] === 0x43;
        const bus = isUsbpcap ? view.getUint16(17, true) : view.getUint16(12, isLittle);
        const device = isUsbpcap ? view.getUint16(19, true) : data[11];
        const report = data.subarray(head);
        const isSent = end < 0x80;
        const isReport = kind === TRANSFER_INTERRUPT && (report.length === PACKET_SIZE || report.length === PACKET_SIZE + 1);
        if (!isReport || isDone === isSent) {
            return null;
        }
        const where = `interface ${frame.number} bus ${bus} device ${device}`;
        const status = view.getInt32(isUsbpcap ? 10 : 28, isUsbpcap || isLittle);
        return { where, isSent, packet: report.subarray(report.length - PACKET_SIZE), at: frame.at, status };
    };

    /** @param {Report} report */
    const isInit = ({ isSent, packet }) => isSent && toHex(packet.subarray(0, 7)) === "ffffffff860008";

    /**
     * The devices to which a host sends INIT. If there are none, the devices to which a host sends any report.
     * @param {Report[]} reports
     */
    const findDevices = (reports) => {
        const initialized = new Set(reports.filter(isInit).map((report) => report.where));
        const sent = new Set(reports.filter((report) => report.isSent).map((report) => report.where));
        return initialized.size ? [...initialized] : [...sent];
    };

    /**
     * The log of the reports of a device.
     * @param {Report[]} reports
     */
    const formatLog = (reports) => {
        const start = reports[0].at;
        let now = 0;
        const lines = [
            `# imported from a capture of USB: ${reports[0].where}`,
            `# moment 0 is ${(start / 1000).toFixed(3)} s after 1970`,
        ];
        for (const { isSent, packet, at, status } of reports) {
            const timeMs = Math.max(now, at - start);
            if (isSent) {
                lines.push(`> ${timeMs} ${toHex(packet)}`);
            } else {
                if (status) {
                    lines.push(`# the next packet came as its transfer was ended (status ${status}): nobody read it`);
                }
                // Within the KEEPALIVE interval, a key's behavior does not depend on time.
                if (timeMs - now >= KEEPALIVE_MS) {
                    lines.push(`t ${timeMs}`);
                }
                lines.push(`< ${toHex(packet)}`);
            }
            now = isSent || timeMs - now >= KEEPALIVE_MS ? timeMs : now;
        }
        return new TextEncoder().encode(`${lines.join("\n")}\n`);
    };

    /**
     * The log in a capture that hidlog exported. The lines that are not packets are stored as comments of the frames.
     * @param {Frame[]} frames
     */
    const readEmbeddedLog = (frames) => {
        const lines = [];
        let end = "\n";
        for (const frame of frames) {
            const report = findReport(frame);
            let written = report && `${report.isSent ? `> ${frame.at}` : "<"} ${toHex(report.packet)}`;
            for (const text of frame.comments.map((comment) => decoder.decode(comment))) {
                if (text.startsWith("line ")) {
                    lines.push(text.slice(5));
                } else if (text.startsWith("as ")) {
                    written = text.slice(3);
                } else if (text === "no line feed") {
                    end = "";
                }
            }
            if (written) {
                lines.push(written);
            }
        }
        return new TextEncoder().encode(lines.join("\n") + (lines.length ? end : ""));
    };

    /**
     * The logs in a capture, one for each key.
     * @param {Uint8Array} bytes
     * @returns {Viewer.NamedLog[]}
     */
    const readCaptureLogs = (bytes) => {
        const isPcapng = toHex(bytes.subarray(0, 4)) === SECTION_HEADER;
        const frames = [...(isPcapng ? readPcapng(bytes) : readPcap(bytes))];
        if (frames.length && !frames.some((frame) => frame.link in HEAD_BYTES)) {
            throw new Error(`unsupported link type ${frames[0].link}; supported are USB captures of usbmon and USBPcap`);
        }
        if (frames.some((frame) => frame.isOwn)) {
            return [{ name: "exported", bytes: readEmbeddedLog(frames) }];
        }
        const reports = /** @type {Report[]} */ (frames.map(findReport).filter((report) => report !== null));
        const keys = findDevices(reports);
        if (!keys.length) {
            throw new Error("no security key with complete packets found; try hidlog import, which reads more formats");
        }
        return keys.map((where) => ({
            name: where,
            bytes: formatLog(reports.filter((report) => report.where === where)),
        }));
    };

    /**
     * The logs in a file: those in a capture, or the file itself.
     * @param {Uint8Array} bytes
     * @returns {Viewer.NamedLog[]}
     */
    const readLogs = (bytes) => (isCapture(bytes) ? readCaptureLogs(bytes) : [{ name: "", bytes }]);

    globalThis.hidlogCaptures = { isCapture, readLogs };
})();
