// Draws the visible rows as a sequence diagram, with a lifeline for each channel, one for the key and one for the key's
// caller. Sets `globalThis.hidlogDrawing`.
"use strict";

(() => {
    const { KEEPALIVE } = globalThis.hidlogBytes;
    const { BROADCAST } = globalThis.hidlogSession;
    const { formatPause, roundDown } = globalThis.hidlogLayout;
    const HEAD_HEIGHT = 28;
    const MAX_CHANNELS = 6;

    /**
     * Places the lifelines in a width. Channels beyond the maximum number share the first lifeline.
     * @param {string[]} channels
     * @param {number} width
     * @returns {Viewer.Lifelines}
     */
    const placeLifelines = (channels, width) => {
        const own = channels.slice(0, MAX_CHANNELS);
        const hosts = own.map((channel) => (channel === BROADCAST ? "broadcast" : `host ${channel}`));
        const names = [...hosts, "key", "caller"];
        const left = width < 700 ? 84 : 120;
        const step = (width - left - 40) / Math.max(1, names.length - 1);
        const places = names.map((_, at) => left + at * step);
        /** @param {string | null} channel */
        const ofChannel = (channel) =>
            places[Math.max(0, Math.min(own.indexOf(/** @type {string} */ (channel)), own.length - 1))];
        const [key, caller] = places.slice(own.length);
        return { names, places, ofChannel, key, caller, isNarrow: width < 700 };
    };

    /** Draws on a canvas in the colours of the page. */
    class CanvasPen {
        /** @param {HTMLCanvasElement} canvas */
        constructor(canvas) {
            const scale = globalThis.devicePixelRatio || 1;
            const { clientWidth: width, clientHeight: height } = /** @type {HTMLElement} */ (canvas.parentElement);
            canvas.width = width * scale;
            canvas.height = height * scale;
            canvas.style.width = `${width}px`;
            canvas.style.height = `${height}px`;
            this.to = /** @type {CanvasRenderingContext2D} */ (canvas.getContext("2d"));
            this.to.scale(scale, scale);
            this.to.font = "12px ui-monospace, 'DejaVu Sans Mono', monospace";
            this.to.textBaseline = "middle";
            Object.assign(this, { width, height, styles: new Map(), behind: "paper" });
        }

        /**
         * @param {string} name
         * @this {Viewer.Pen}
         */
        colour(name) {
            if (!this.styles.has(name)) {
                const probe = document.createElement("span");
                // With forced colours, all texts and all backgrounds would have the same colours.
                probe.style.setProperty("forced-color-adjust", "none");
                probe.style.color = `var(--${name})`;
                document.body.append(probe);
                this.styles.set(name, getComputedStyle(probe).color);
                probe.remove();
            }
            return /** @type {string} */ (this.styles.get(name));
        }

        /**
         * @param {number} x1
         * @param {number} y1
         * @param {number} x2
         * @param {number} y2
         * @param {string} colour
         * @param {number[]} dashes
         * @param {number} wide
         * @this {Viewer.Pen}
         */
        line(x1, y1, x2, y2, colour, dashes = [], wide = 1) {
            const { to } = this;
            to.strokeStyle = this.colour(colour);
            to.lineWidth = wide;
            to.setLineDash(dashes);
            to.beginPath();
            to.moveTo(x1, y1);
            to.lineTo(x2, y2);
            to.stroke();
            to.setLineDash([]);
        }

        /**
         * @param {number} x1
         * @param {number} x2
         * @param {number} y
         * @param {string} colour
         * @param {number[]} dashes
         * @this {Viewer.Pen}
         */
        arrow(x1, x2, y, colour, dashes = []) {
            const { to } = this;
            const way = x2 > x1 ? -1 : 1;
            this.line(x1, y, x2, y, colour, dashes, 1.5);
            to.fillStyle = this.colour(colour);
            to.beginPath();
            to.moveTo(x2, y);
            to.lineTo(x2 + way * 8, y - 4);
            to.lineTo(x2 + way * 8, y + 4);
            to.fill();
        }

        /**
         * @param {string} text
         * @this {Viewer.Pen}
         */
        widthOf(text) {
            return this.to.measureText(text).width;
        }

        /**
         * Draws a text with a background, truncated to a width.
         * @param {string} text
         * @param {number} x
         * @param {number} y
         * @param {string} colour
         * @param {number} most
         * @param {string} align
         * @this {Viewer.Pen}
         */
        label(text, x, y, colour, most, align = "center") {
            const { to } = this;
            let shown = text;
            while (shown.length > 1 && this.widthOf(shown) > most) {
                shown = `${shown.slice(0, -2)}…`;
            }
            const wide = this.widthOf(shown);
            const from = align === "center" ? x - wide / 2 : x;
            to.fillStyle = this.colour(this.behind);
            to.fillRect(from - 3, y - 8, wide + 6, 16);
            to.fillStyle = this.colour(colour);
            to.fillText(shown, from, y);
        }
    }

    /**
     * The name of the colour behind a row.
     * @param {Viewer.Row} row
     * @param {boolean} isChosen
     */
    const getRowColour = (row, isChosen) => {
        if (row.differs) {
            return "fault-paper";
        }
        return isChosen ? "chosen" : "paper";
    };

    /**
     * A row's text without a leading "CBOR LENGTH" or "KEEPALIVE 1 STATUS".
     * @param {string} text
     */
    const shortenText = (text) => text.replace(/^CBOR \d+ {2}|^KEEPALIVE 1 \d\d {2}/, "");

    /**
     * Draws a text between two lifelines, or beside them if there is not enough space. On narrow pages, the text starts
     * at the first lifeline.
     * @param {Viewer.Pen} pen
     * @param {Viewer.Lifelines} lanes
     * @param {number[]} ends
     * @param {number} y
     * @param {string} text
     * @param {string} colour
     */
    const drawTextBetween = (pen, lanes, [from, to], y, text, colour) => {
        const label = shortenText(text);
        const [least, most] = [Math.min(from, to), Math.max(from, to)];
        if (lanes.isNarrow) {
            const left = lanes.places[0] + 12;
            pen.label(label, left, y, colour, pen.width - left - 12, "left");
        } else if (pen.widthOf(label) > most - least - 26 && pen.widthOf(label) < pen.width - most - 20) {
            pen.label(label, most + 10, y, colour, pen.width - most - 20, "left");
        } else {
            pen.label(label, (from + to) / 2, y, colour, most - least - 26);
        }
    };

    /**
     * @param {Viewer.Pen} pen
     * @param {Viewer.Lifelines} lanes
     * @param {number[]} ends
     * @param {number} y
     * @param {string} text
     * @param {string} colour
     * @param {number[]} dashes
     */
    const drawArrow = (pen, lanes, ends, y, text, colour, dashes) => {
        pen.arrow(ends[0], ends[1], y, colour, dashes);
        drawTextBetween(pen, lanes, ends, y, text, colour);
    };

    /**
     * Draws a row by its kind.
     * @param {Viewer.Pen} pen
     * @param {Viewer.Lifelines} lanes
     * @param {Viewer.Row} row
     * @param {number} y
     */
    const drawRow = (pen, lanes, row, y) => {
        const { line } = row;
        const host = lanes.ofChannel(line.channel);
        const keepalive = line.message?.command === KEEPALIVE ? [4, 4] : [];
        const noise = row.noise ? [2, 5] : null;
        const left = lanes.places[0] + 8;
        /** @param {string} colour */
        const comment = (colour) => pen.label(row.says, left, y, colour, pen.width - left - 12, "left");
        /** @type {Record<string, () => void>} */
        const drawers = {
            host: () => drawArrow(pen, lanes, [host, lanes.key], y, row.says, row.noise ? "faint" : "host", noise ?? []),
            key: () => drawArrow(pen, lanes, [lanes.key, host], y, row.says, "key", keepalive),
            caller: () => drawArrow(pen, lanes, [lanes.caller, lanes.key], y, row.says, "caller", noise ?? []),
            need: () => drawArrow(pen, lanes, [lanes.key, lanes.caller], y, row.says, "need", [4, 4]),
            time: () => pen.line(lanes.places[0], y, lanes.caller, y, "line", [1, 4]),
            fault: () => comment("fault"),
        };
        (drawers[row.kind] ?? (() => comment("faint")))();
        if (line.timeMs !== undefined) {
            pen.label(`${line.timeMs} ms`, lanes.isNarrow ? 2 : 10, y, "faint", lanes.isNarrow ? 62 : 90, "left");
        }
    };

    /**
     * Draws a transaction as a bar from its host to the key, with its result.
     * @param {Viewer.Pen} pen
     * @param {Viewer.Lifelines} lanes
     * @param {Viewer.Row} row
     * @param {number} y
     */
    const drawTransaction = (pen, lanes, row, y) => {
        const host = lanes.ofChannel(/** @type {Viewer.Transaction} */ (row.transaction).channel);
        const colour = row.isRefused ? "fault" : "host";
        const left = lanes.isNarrow ? lanes.places[0] + 12 : host + 24;
        pen.line(host, y, lanes.key, y, colour, [], 3);
        pen.label(row.outcome, left, y, row.isRefused ? "fault" : "ink", pen.width - left - 12, "left");
        pen.label(`${row.line.timeMs} ms`, lanes.isNarrow ? 2 : 10, y, "faint", lanes.isNarrow ? 62 : 90, "left");
    };

    /**
     * Draws a cut pause before a row: a gap in the lifelines, with the length of the pause.
     * @param {Viewer.Pen} pen
     * @param {Viewer.Lifelines} lanes
     * @param {Viewer.Pause} pause
     * @param {number} y
     */
    const drawPause = (pen, lanes, { milliseconds, height }, y) => {
        const middle = y - height / 2;
        pen.behind = "paper";
        pen.to.fillStyle = pen.colour("paper");
        pen.to.fillRect(0, middle - 5, pen.width, 10);
        for (const place of lanes.places) {
            pen.line(place - 5, middle - 3, place + 5, middle - 7, "faint");
            pen.line(place - 5, middle + 7, place + 5, middle + 3, "faint");
        }
        const left = lanes.places[0] + 12;
        pen.label(`${formatPause(milliseconds)} later, not to scale`, left, middle, "ink", pen.width - left - 12, "left");
    };

    /**
     * Draws the mark of a row at the end of the row.
     * @param {Viewer.Pen} pen
     * @param {string} mark
     * @param {number} y
     */
    const drawMark = (pen, mark, y) => {
        if (mark) {
            const wide = Math.min(pen.widthOf(mark), pen.width * 0.45);
            pen.label(mark, pen.width - wide - 10, y, "fault", wide, "left");
        }
    };

    // The maximum length of the scale's bar, and the width for the bar and its text, in pixels.
    const [BAR_LENGTH, SCALE_WIDTH] = [20, 64];

    /**
     * Draws the scale of time: a bar and its duration.
     * @param {Viewer.Pen} pen
     * @param {number} scale
     */
    const drawScale = (pen, scale) => {
        const milliseconds = scale ? roundDown(BAR_LENGTH / scale) : 0;
        if (milliseconds) {
            const [top, length] = [(HEAD_HEIGHT - milliseconds * scale) / 2, milliseconds * scale];
            [[7, top, 7, top + length], [4, top, 10, top], [4, top + length, 10, top + length]].forEach(([x1, y1, x2, y2]) =>
                pen.line(x1, y1, x2, y2, "ink", [], 1.5));
            pen.to.fillStyle = pen.colour("ink");
            pen.to.fillText(formatPause(milliseconds), 15, HEAD_HEIGHT / 2);
        }
    };

    /**
     * @param {Viewer.Pen} pen
     * @param {Viewer.Lifelines} lanes
     * @param {number} scale
     */
    const drawLifelineHeads = (pen, lanes, scale) => {
        pen.to.fillStyle = pen.colour("raised");
        pen.to.fillRect(0, 0, pen.width, HEAD_HEIGHT);
        pen.line(0, HEAD_HEIGHT, pen.width, HEAD_HEIGHT, "line");
        drawScale(pen, scale);
        const most = lanes.places.length > 1 ? lanes.places[1] - lanes.places[0] - 8 : 200;
        lanes.names.forEach((name, at) => {
            // Keep the text outside the scale and inside the canvas.
            const x = Math.max(Math.min(lanes.places[at], pen.width - 28), SCALE_WIDTH + pen.widthOf(name) / 2);
            pen.to.fillStyle = pen.colour("ink");
            pen.to.textAlign = "center";
            pen.to.fillText(name, x, HEAD_HEIGHT / 2, most);
            pen.to.textAlign = "start";
        });
    };

    /**
     * Draws the rows that fit, beginning with `first`, at the positions of `layout` (row_layout.js).
     * @param {HTMLCanvasElement} canvas
     * @param {Viewer.Drawing} drawing
     */
    const draw = (canvas, { count, rowAt, first, layout, scrollTop, rowHeight, channels, chosen }) => {
        const pen = /** @type {Viewer.Pen} */ (/** @type {unknown} */ (new CanvasPen(canvas)));
        const lanes = placeLifelines(channels, pen.width);
        for (const place of lanes.places) {
            pen.line(place, HEAD_HEIGHT, place, pen.height, "line");
        }
        /** @param {number} at */
        const topOf = (at) => HEAD_HEIGHT + layout.top(at) - scrollTop;
        for (let at = first; at < count && topOf(at) < pen.height; at += 1) {
            const y = topOf(at);
            const row = /** @type {Viewer.Row} */ (rowAt(at));
            const pause = layout.pause(at);
            if (pause.isCut) {
                drawPause(pen, lanes, pause, y);
            }
            pen.behind = getRowColour(row, at === chosen);
            if (pen.behind !== "paper") {
                pen.to.fillStyle = pen.colour(pen.behind);
                pen.to.fillRect(0, y, pen.width, rowHeight);
            }
            (row.transaction ? drawTransaction : drawRow)(pen, lanes, row, y + rowHeight / 2);
            drawMark(pen, row.mark, y + rowHeight / 2);
        }
        drawLifelineHeads(pen, lanes, layout.scale);
    };

    globalThis.hidlogDrawing = { draw, HEAD_HEIGHT };
})();
