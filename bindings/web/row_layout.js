// The layout of rows: evenly spaced in the table, and in the drawing at distances that show the time between them. Sets
// `globalThis.hidlogLayout`.
"use strict";

(() => {
    // Pixels for the time between two rows: for a typical time, at most, and for a longer pause, which is cut.
    const [TYPICAL_GAP, MAX_GAP, CUT_GAP] = [32, 120, 44];
    // Maximum height of all rows in pixels, since browsers limit the height of an element.
    const MAX_HEIGHT = 16_000_000;
    const BATCH_SIZE = 4096;
    const STEPS = [1, 2, 5];

    /** A layout with rows of the same height, which shows no time. */
    class EvenLayout {
        /**
         * @param {number} count
         * @param {number} rowHeight
         */
        constructor(count, rowHeight) {
            this.rowHeight = rowHeight;
            this.height = count * rowHeight;
            // Pixels per millisecond: 0, since this layout shows no time.
            this.scale = 0;
        }

        /**
         * The vertical position of a row.
         * @param {number} place
         */
        top(place) {
            return place * this.rowHeight;
        }

        /**
         * The row at a vertical position.
         * @param {number} y
         */
        placeAt(y) {
            return Math.max(0, Math.floor(y / this.rowHeight));
        }

        /**
         * The pause before a row.
         * @param {number} _place
         * @returns {{ milliseconds: number, height: number, isCut: boolean }}
         */
        pause(_place) {
            return { milliseconds: 0, height: 0, isCut: false };
        }
    }

    /**
     * The largest value among .., 0.2, 0.5, 1, 2, 5, 10, 20, .. that does not exceed a number.
     * @param {number} most
     */
    const roundDown = (most) => {
        const power = 10 ** Math.floor(Math.log10(most));
        return Math.max(...STEPS.filter((step) => step * power <= most * 1.000001)) * power;
    };

    /**
     * Pixels per millisecond, chosen so that a typical pause has the intended length.
     * @param {Float64Array} pauses
     */
    const findScale = (pauses) => {
        const sorted = pauses.filter((pause) => pause > 0).sort();
        return sorted.length ? roundDown(TYPICAL_GAP / sorted[(sorted.length - 1) >> 1]) : 0;
    };

    /** A layout with rows at distances that show the time between them. A long pause is cut. */
    class TimedLayout extends EvenLayout {
        /**
         * @param {Float64Array} pauses milliseconds before each row
         * @param {number} rowHeight
         */
        constructor(pauses, rowHeight) {
            super(pauses.length, rowHeight);
            this.pauses = pauses;
            this.scale = findScale(pauses);
            this.tops = new Float64Array(pauses.length + 1);
            const room = Math.max(0, MAX_HEIGHT - this.height);
            const sum = pauses.reduce((total, pause) => total + this.gap(pause), 0);
            this.scale *= sum > room ? room / sum : 1;
            for (let at = 0, y = 0; at < pauses.length; at += 1) {
                y += this.gap(pauses[at]);
                this.tops[at] = y;
                y += rowHeight;
                this.tops[at + 1] = y;
            }
            this.height = this.tops[pauses.length];
        }

        /**
         * The height of a pause in pixels.
         * @param {number} milliseconds
         */
        gap(milliseconds) {
            const gap = milliseconds * this.scale;
            return gap > MAX_GAP ? CUT_GAP : gap;
        }

        /** @param {number} place */
        top(place) {
            return this.tops[Math.min(place, this.pauses.length)];
        }

        /** @param {number} y */
        placeAt(y) {
            let [least, most] = [0, this.pauses.length];
            while (most - least > 1) {
                const middle = (least + most) >> 1;
                if (this.tops[middle] <= y) {
                    least = middle;
                } else {
                    most = middle;
                }
            }
            return least;
        }

        /** @param {number} place */
        pause(place) {
            const milliseconds = this.pauses[place];
            const height = this.gap(milliseconds);
            return { milliseconds, height, isCut: milliseconds * this.scale > MAX_GAP };
        }
    }

    /**
     * The milliseconds between each row and the latest preceding one, computed in steps. (The rows of an unfolded
     * transaction are not always in order of time.)
     * @param {number} count @param {(place: number) => number} timeOf
     */
    const findPauses = function* finding(count, timeOf) {
        const pauses = new Float64Array(count);
        let latest = count ? timeOf(0) : 0;
        for (let place = 1; place < count; place += 1) {
            const time = timeOf(place);
            pauses[place] = Math.max(0, time - latest);
            latest = Math.max(latest, time);
            if (place % BATCH_SIZE === 0) {
                yield place;
            }
        }
        return pauses;
    };

    /**
     * A duration in words.
     * @param {number} milliseconds
     */
    const formatPause = (milliseconds) => {
        if (milliseconds < 1000) {
            return `${milliseconds} ms`;
        }
        const seconds = milliseconds / 1000;
        return seconds < 60 ? `${Number(seconds.toFixed(2))} s` : `${Math.floor(seconds / 60)} min ${Math.round(seconds % 60)} s`;
    };

    globalThis.hidlogLayout = { EvenLayout, TimedLayout, findPauses, formatPause, roundDown };
})();
