// Shows packets as hexadecimal bytes, in which the bytes of a field are marked. Sets `globalThis.hidlogHexPane`.
"use strict";

(() => {
    const { toHex } = globalThis.hidlogBytes;
    // Number of characters of a row besides the bytes: the offset, and the gap before the text.
    const [OFFSET_WIDTH, TEXT_GAP] = [4, 2];
    const [WIDE_ROW, NARROW_ROW] = [16, 8];
    const WIDTH_PER_BYTE = 4;

    /**
     * @param {string} className
     * @param {string} text
     */
    const makeSpan = (className, text) =>
        Object.assign(document.createElement("span"), { className, textContent: text });

    /** @param {number} byte */
    const toLetter = (byte) => (byte >= 32 && byte < 127 ? String.fromCharCode(byte) : "·");

    /**
     * Describes ranges in words, with the lines of their packets.
     * @param {Viewer.ByteRange[]} ranges
     * @param {Viewer.Packet[]} packets
     */
    const describeRanges = (ranges, packets) => {
        const count = ranges.reduce((sum, { from, to }) => sum + to - from, 0);
        if (!count) {
            return "No bytes of its own";
        }
        const size = packets[0].bytes.length;
        const places = ranges.map(({ from, to }) => {
            const { number } = packets[Math.floor(from / size)];
            const [first, last] = [from % size, (to - 1) % size];
            return `line ${number}, ${first === last ? `byte ${first}` : `bytes ${first} to ${last}`}`;
        });
        return `${count} byte${count === 1 ? "" : "s"}: ${places.join("; ")}`;
    };

    /**
     * Returns the bytes of ranges in hexadecimal.
     * @param {Viewer.ByteRange[]} ranges
     * @param {Viewer.Packet[]} packets
     */
    const readRanges = (ranges, packets) => {
        const size = packets[0]?.bytes.length ?? 1;
        return ranges.map(({ from, to }) =>
            toHex(packets[Math.floor(from / size)].bytes.subarray(from % size, from % size + to - from))).join("");
    };

    /** The pane with the packets of the selected row. */
    class HexPane {
        /**
         * @param {HTMLElement} element
         * @param {HTMLElement} status
         * @param {(place: number) => void} choose
         */
        constructor(element, status, choose) {
            this.element = element;
            this.status = status;
            /** @type {Viewer.Packet[]} */
            this.packets = [];
            /** @type {Viewer.ByteRange[]} */
            this.ranges = [];
            /** @type {HTMLElement[]} */
            this.cells = [];
            this.width = 0;
            this.isDrawn = true;
            element.addEventListener("click", ({ target }) => {
                const at = target instanceof HTMLElement ? target.dataset.at : undefined;
                if (at !== undefined) {
                    choose(Number(at));
                }
            });
        }

        /** Number of bytes in a row that fit in the pane. */
        rowBytes() {
            const probe = makeSpan("", "0".repeat(10));
            this.element.append(probe);
            const letter = probe.getBoundingClientRect().width / 10;
            probe.remove();
            const needed = OFFSET_WIDTH + TEXT_GAP + WIDE_ROW * WIDTH_PER_BYTE;
            return letter && this.element.clientWidth / letter >= needed ? WIDE_ROW : NARROW_ROW;
        }

        /**
         * Shows packets, without marked bytes.
         * @param {Viewer.Packet[]} packets
         */
        show(packets) {
            this.packets = packets;
            this.ranges = [];
            this.element.replaceChildren();
            this.isDrawn = false;
            // Draws in the next frame, since arrow keys may select several rows per frame.
            requestAnimationFrame(() => this.drawOnce());
        }

        drawOnce() {
            if (!this.isDrawn) {
                this.draw();
            }
        }

        draw() {
            this.isDrawn = true;
            const { packets, element } = this;
            element.replaceChildren();
            this.width = this.rowBytes();
            this.cells = [];
            const shown = packets.flatMap((packet, at) => this.makePacket(packet, at * packet.bytes.length));
            element.replaceChildren(...shown);
            this.mark(this.ranges, false);
        }

        /** Draws the pane again if another number of bytes fits in a row now. */
        fit() {
            if (this.packets.length && this.rowBytes() !== this.width) {
                this.draw();
            }
        }

        /**
         * @param {Viewer.Packet} packet
         * @param {number} base
         */
        makePacket({ number, bytes }, base) {
            const rows = [makeSpan("hex-line", `Line ${number}`)];
            for (let from = 0; from < bytes.length; from += this.width) {
                const row = makeSpan("hex-row", "");
                const part = bytes.subarray(from, from + this.width);
                const cells = Array.from(part, (byte, at) => {
                    const cell = makeSpan("byte", byte.toString(16).padStart(2, "0"));
                    cell.dataset.at = String(base + from + at);
                    this.cells.push(cell);
                    return cell;
                });
                const letters = makeSpan("letters", Array.from(part, toLetter).join(""));
                letters.setAttribute("aria-hidden", "true");
                row.append(makeSpan("offset", from.toString(16).padStart(2, "0")), ...cells, letters);
                rows.push(row);
            }
            return rows;
        }

        /**
         * Marks ranges, and scrolls to the first one if `isScrolling`.
         * @param {Viewer.ByteRange[]} ranges
         * @param {boolean} [isScrolling]
         */
        mark(ranges, isScrolling = true) {
            this.ranges = ranges;
            this.drawOnce();
            this.cells.forEach((cell) => cell.classList.remove("marked"));
            const marked = ranges.flatMap(({ from, to }) => this.cells.slice(from, to));
            marked.forEach((cell) => cell.classList.add("marked"));
            const { element } = this;
            if (marked.length && isScrolling && element.scrollHeight > element.clientHeight) {
                const [box, around] = [marked[0], element].map((each) => each.getBoundingClientRect());
                element.scrollTop += box.top - around.top - around.height / 3;
            }
        }

        /**
         * Reports the positions of the marked bytes.
         * @param {boolean} isField whether a field is selected
         */
        describe(isField) {
            const { ranges, packets } = this;
            const size = packets.reduce((sum, { bytes }) => sum + bytes.length, 0);
            this.status.textContent = isField ? describeRanges(ranges, packets)
                : `${packets.length} packet${packets.length === 1 ? "" : "s"}, ${size} bytes`;
        }
    }

    globalThis.hidlogHexPane = { HexPane, describeRanges, readRanges };
})();
