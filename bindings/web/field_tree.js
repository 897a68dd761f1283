// A tree of fields (fields.js), after ARIA's tree view pattern: arrow keys move, open and close; screen readers
// announce the selected field. Sets `globalThis.hidlogFieldTree`.
"use strict";

(() => {
    /**
     * A shown field, its number and the count among its siblings, and its parent.
     * @typedef {{ field: Viewer.Field, at: number, count: number, around: Viewer.Field | null }} Shown
     */

    let treeCount = 0;

    // The positions at which a long row of hexadecimal digits may break: after every eight digits.
    const DIGIT_BREAKS = /(?<=(?:[0-9a-f]{8})+)(?=[0-9a-f]{8})/g;

    /**
     * A text that may break within long rows of hexadecimal digits.
     * @param {string} text
     */
    const makeBreakable = (text) => text.split(/([0-9a-f]{16,})/).flatMap((part, at) =>
        (at % 2 ? part.split(DIGIT_BREAKS).flatMap((digits) => [document.createElement("wbr"), digits]) : [part]));

    /** The tree, as an element of the page. */
    class FieldTree {
        /**
         * @param {Viewer.Field[]} fields
         * @param {(field: Viewer.Field | null) => void} choose called when another field is selected
         */
        constructor(fields, choose) {
            this.fields = fields;
            this.choose = choose;
            /** @type {Viewer.Field | null} */
            this.chosen = null;
            /** @type {Shown[]} */
            this.shown = [];
            treeCount += 1;
            this.prefix = `field-${treeCount}-`;
            this.element = Object.assign(document.createElement("span"), { className: "fields", tabIndex: 0 });
            this.element.setAttribute("role", "tree");
            this.element.setAttribute("aria-label", "Fields");
            this.element.addEventListener("keydown", (event) => this.onKey(event));
            this.element.addEventListener("click", (event) => this.onClick(event));
            this.render();
        }

        /**
         * The shown fields, in order.
         * @returns {Shown[]}
         */
        listShown() {
            /** @type {(fields: Viewer.Field[], around: Viewer.Field | null) => Shown[]} */
            const list = (fields, around) => fields.flatMap((field, at) =>
                [{ field, at, count: fields.length, around }, ...field.isOpen ? list(field.inner, field) : []]);
            return list(this.fields, null);
        }

        render() {
            this.shown = this.listShown();
            this.element.replaceChildren(...this.shown.map((each, place) => this.makeItem(each, place)));
            const place = this.shown.findIndex(({ field }) => field === this.chosen);
            this.element[place < 0 ? "removeAttribute" : "setAttribute"]("aria-activedescendant", this.prefix + place);
        }

        /**
         * @param {Shown} shown
         * @param {number} place
         */
        makeItem({ field, at, count }, place) {
            const item = document.createElement("span");
            item.id = this.prefix + place;
            item.dataset.place = String(place);
            const states = {
                role: "treeitem", "aria-level": field.level, "aria-posinset": at + 1, "aria-setsize": count,
                "aria-selected": field === this.chosen, ...field.inner.length ? { "aria-expanded": field.isOpen } : {},
            };
            Object.entries(states).forEach(([name, value]) => item.setAttribute(name, String(value)));
            const parent = field.isMarked ? item.appendChild(document.createElement("mark")) : item;
            parent.append(...makeBreakable(field.text));
            item.append("\n");
            return item;
        }

        /**
         * Selects a field, and opens its ancestors.
         * @param {Viewer.Field} field
         */
        select(field) {
            /** @type {(fields: Viewer.Field[]) => boolean} */
            const open = (fields) => fields.some((each) => {
                const isAround = each !== field && open(each.inner);
                each.isOpen ||= isAround;
                return each === field || isAround;
            });
            open(this.fields);
            this.chosen = field;
            this.render();
            const item = this.element.querySelector("[aria-selected=true]");
            item?.scrollIntoView({ block: "nearest" });
            this.choose(field);
        }

        /**
         * Selects the innermost field that contains a byte.
         * @param {number} place
         */
        selectByte(place) {
            /** @type {(fields: Viewer.Field[]) => Viewer.Field | null} */
            const find = (fields) => {
                for (const field of fields) {
                    const inner = find(field.inner);
                    if (inner || field.ranges.some(({ from, to }) => place >= from && place < to)) {
                        return inner ?? field;
                    }
                }
                return null;
            };
            const found = find(this.fields);
            if (found) {
                this.select(found);
            }
        }

        /**
         * @param {Viewer.Field} field
         * @param {boolean} isOpen
         */
        setOpen(field, isOpen) {
            field.isOpen = isOpen;
            this.select(field);
        }

        /** @param {MouseEvent} event */
        onClick({ target }) {
            const item = target instanceof Element ? target.closest("[role=treeitem]") : null;
            const found = item instanceof HTMLElement ? this.shown[Number(item.dataset.place)].field : null;
            if (found && found === this.chosen && found.inner.length) {
                this.setOpen(found, !found.isOpen);
            } else if (found) {
                this.select(found);
            }
        }

        /**
         * The field to select for a key, or undefined.
         * @param {string} key
         */
        findTarget(key) {
            const place = this.shown.findIndex(({ field }) => field === this.chosen);
            const last = this.shown.length - 1;
            const places = { ArrowDown: Math.min(place + 1, last), ArrowUp: Math.max(place - 1, 0), Home: 0, End: last };
            const found = Object.entries(places).find(([name]) => name === key);
            return found && this.shown[found[1]]?.field;
        }

        /** @param {KeyboardEvent} event */
        onKey(event) {
            if (event.ctrlKey || event.metaKey || event.altKey) {
                return;
            }
            const { chosen } = this;
            const target = this.findTarget(event.key);
            const isOpening = { ArrowRight: true, ArrowLeft: false, Enter: !chosen?.isOpen, " ": !chosen?.isOpen }[event.key];
            if (target) {
                this.select(target);
            } else if (isOpening !== undefined && chosen) {
                this.openOrMove(chosen, isOpening);
            }
            if (target || isOpening !== undefined) {
                event.preventDefault();
                event.stopPropagation();
            }
        }

        /**
         * Opens or closes a field. If the field is open or closed already, moves to its first child or to its parent.
         * @param {Viewer.Field} field
         * @param {boolean} isOpen
         */
        openOrMove(field, isOpen) {
            const around = this.shown.find((each) => each.field === field)?.around;
            if (field.inner.length && field.isOpen !== isOpen) {
                this.setOpen(field, isOpen);
            } else if (isOpen && field.inner.length) {
                this.select(field.inner[0]);
            } else if (!isOpen && around) {
                this.select(around);
            }
        }
    }

    globalThis.hidlogFieldTree = { FieldTree };
})();
