// A button with a menu of rarely used functions, after ARIA's menu button pattern. Sets `globalThis.hidlogMenu`.
"use strict";

(() => {
    /**
     * @param {string} id
     * @returns {HTMLElement}
     */
    const getElement = (id) => /** @type {HTMLElement} */ (document.getElementById(id));
    const button = getElement("menu-button");
    const menu = getElement("menu");

    /**
     * The items that can be chosen now.
     * @returns {HTMLButtonElement[]}
     */
    const listItems = () => [...menu.querySelectorAll("button")].filter((item) => !item.disabled);

    /** @param {boolean} isOpen */
    const setOpen = (isOpen) => {
        menu.hidden = !isOpen;
        button.setAttribute("aria-expanded", String(isOpen));
    };

    /**
     * Opens the menu, with the focus on the first or the last item.
     * @param {number} place
     */
    const open = (place) => {
        setOpen(true);
        listItems().at(place)?.focus();
    };

    const close = () => {
        setOpen(false);
        button.focus();
    };

    /**
     * The item to move to for a key, or undefined.
     * @param {string} key
     * @returns {HTMLElement | undefined}
     */
    const findTarget = (key) => {
        const items = listItems();
        const at = items.findIndex((item) => item === document.activeElement);
        const places = new Map([["ArrowDown", (at + 1) % items.length], ["ArrowUp", at < 1 ? -1 : at - 1], ["Home", 0], ["End", -1]]);
        const place = places.get(key);
        if (place !== undefined) {
            return items.at(place);
        }
        const after = [...items.slice(at + 1), ...items.slice(0, at + 1)];
        return key.length === 1 ? after.find(({ textContent }) => textContent?.trim().toLowerCase().startsWith(key)) : undefined;
    };

    /** @param {KeyboardEvent} event */
    const onMenuKey = (event) => {
        if (event.key === "Escape") {
            close();
        } else if (event.key === "Tab") {
            setOpen(false);
        } else {
            findTarget(event.key)?.focus();
        }
        if (!["Tab", "Enter", " "].includes(event.key)) {
            event.preventDefault();
        }
        event.stopPropagation();
    };

    /** @param {KeyboardEvent} event */
    const onButtonKey = (event) => {
        const place = { ArrowDown: 0, ArrowUp: -1 }[event.key];
        if (place !== undefined) {
            event.preventDefault();
            event.stopPropagation();
            open(place);
        }
    };

    const start = () => {
        button.addEventListener("click", () => (menu.hidden ? open(0) : close()));
        button.addEventListener("keydown", onButtonKey);
        menu.addEventListener("keydown", onMenuKey);
        // Close the menu before the item's own listener runs, which may move the focus.
        menu.addEventListener("click", ({ target }) => target instanceof Element && target.closest("button") && close(), true);
        document.addEventListener("pointerdown", ({ target }) => {
            if (target instanceof Node && !menu.contains(target) && !button.contains(target)) {
                setOpen(false);
            }
        });
    };

    globalThis.hidlogMenu = { start };
})();
