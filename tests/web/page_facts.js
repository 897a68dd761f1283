// Finds accessibility errors of a page: faint texts, controls that overlap, are cut off or have no name, and invalid
// nesting of roles. Sets `globalThis.pageFacts`; each function takes the page's window.
"use strict";

(() => {
    const MIN_CONTRAST = 4.5;
    // Number of pixels by which boxes may overlap, since their sizes are rounded.
    const TOLERANCE = 1;
    const TEXTS = "button, label, span, p, h1, h2, pre, mark, select, dt, dd, kbd, summary, li, #notice";
    const CONTROLS = "button, select, input:not([type=file]), .button";
    const BLOCKS = "header > *, #scroller, #two-logs, #detail-head, #detail-text, #hex-pane, #empty";

    /** The relative luminance of a colour (WCAG 2.1). */
    const computeLuminance = (colour) => {
        const parts = colour.match(/[\d.]+/g).slice(0, 3).map((part) => part / 255);
        const [red, green, blue] = parts.map((part) => (part <= 0.04045 ? part / 12.92 : ((part + 0.055) / 1.055) ** 2.4));
        return 0.2126 * red + 0.7152 * green + 0.0722 * blue;
    };

    const computeContrast = (one, other) => {
        const [brighter, darker] = [one, other].map(computeLuminance).sort((first, second) => second - first);
        return (brighter + 0.05) / (darker + 0.05);
    };

    const findBackground = (page, element) => {
        const { backgroundColor } = page.getComputedStyle(element);
        return /, 0\)$|transparent/.test(backgroundColor) && element.parentElement
            ? findBackground(page, element.parentElement) : backgroundColor;
    };

    const isVisible = (page, element) => element.checkVisibility({ checkOpacity: true, checkVisibilityCSS: true })
        && element.getClientRects().length > 0;

    const describe = (element) => `${element.tagName.toLowerCase()}${element.id ? `#${element.id}` : ""}`
        + `${element.className ? `.${element.className}` : ""}`;

    const hasOwnText = (element) => [...element.childNodes].some((node) => node.nodeType === 3 && node.data.trim());

    /** Texts with a contrast of less than 4.5:1 to their background (WCAG 2.1, 1.4.3). */
    const findLowContrastTexts = (page) => {
        const faint = [];
        const check = (element, colour, name) => {
            const ratio = computeContrast(colour, findBackground(page, element));
            if (ratio < MIN_CONTRAST) {
                faint.push(`${name} ${ratio.toFixed(2)}`);
            }
        };
        for (const element of page.document.querySelectorAll(TEXTS)) {
            if (!element.disabled && hasOwnText(element) && isVisible(page, element)) {
                check(element, page.getComputedStyle(element).color, describe(element));
            }
        }
        const search = page.document.getElementById("search");
        check(search, page.getComputedStyle(search, "::placeholder").color, "the placeholder of the search field");
        return [...new Set(faint)];
    };

    const isOverlapping = (one, other) => Math.min(one.right, other.right) - Math.max(one.left, other.left) > TOLERANCE
        && Math.min(one.bottom, other.bottom) - Math.max(one.top, other.top) > TOLERANCE;

    /** Controls that overlap, and parts of the page that overlap. An open menu or dialog may overlap the page. */
    const findOverlaps = (page) => {
        const found = [];
        for (const selector of [CONTROLS, BLOCKS]) {
            const all = [...page.document.querySelectorAll(selector)]
                .filter((element) => isVisible(page, element) && !element.closest("[role=menu], dialog"));
            all.forEach((one, at) => all.slice(at + 1).forEach((other) => {
                const isInside = one.contains(other) || other.contains(one);
                if (!isInside && isOverlapping(one.getBoundingClientRect(), other.getBoundingClientRect())) {
                    found.push(`${describe(one)} and ${describe(other)}`);
                }
            }));
        }
        return found;
    };

    /** Buttons whose text is cut off, and a page that is wider than its window. */
    const findCutOffTexts = (page) => {
        const { documentElement } = page.document;
        const isCut = (element) => element.scrollWidth > element.clientWidth + TOLERANCE;
        const cut = [...page.document.querySelectorAll("button, .button")]
            .filter((element) => isVisible(page, element) && isCut(element)).map((element) => `${describe(element)} is cut off`);
        return documentElement.scrollWidth > documentElement.clientWidth
            ? [...cut, `the page has ${documentElement.scrollWidth} pixels of ${documentElement.clientWidth}`] : cut;
    };

    const hasName = (element) => Boolean(element.getAttribute("aria-label") || element.getAttribute("aria-labelledby")
        || element.textContent.trim() || element.labels?.length);

    // The roles that an element of a role may contain.
    const ALLOWED_CHILD_ROLES = { tree: ["treeitem"], menu: ["menuitem"], tablist: ["tab"], grid: ["row", "rowgroup"], row: ["gridcell", "columnheader"] };

    /** Controls without a name, references to missing elements, and roles inside roles that may not contain them. */
    const findRoleErrors = (page) => {
        const { document } = page;
        const faults = [...document.querySelectorAll(`${CONTROLS}, [role=tree], [role=toolbar], [role=grid]`)]
            .filter((element) => !hasName(element)).map((element) => `${describe(element)} has no name`);
        for (const name of ["aria-controls", "aria-activedescendant", "aria-labelledby"]) {
            const dangling = [...document.querySelectorAll(`[${name}]`)]
                .filter((element) => isVisible(page, element) && !document.getElementById(element.getAttribute(name)));
            faults.push(...dangling.map((element) => `${name} of ${describe(element)} is ${element.getAttribute(name)}`));
        }
        for (const [role, owned] of Object.entries(ALLOWED_CHILD_ROLES)) {
            const inner = [...document.querySelectorAll(`[role=${role}] > [role]`)].filter((each) => !owned.includes(each.getAttribute("role")));
            faults.push(...inner.map((each) => `${role} contains ${each.getAttribute("role")}`));
        }
        const chosen = document.querySelectorAll("[role=tab][aria-selected=true]").length;
        return chosen === 1 ? faults : [...faults, `${chosen} tabs are selected`];
    };

    /** Describes the focused element: its ID, whether its focus mark is visible, and whether it is in the viewport. */
    const describeFocus = (page) => {
        const element = page.document.activeElement;
        const { outlineStyle, outlineWidth } = page.getComputedStyle(element);
        const box = element.getBoundingClientRect();
        const isInSight = box.bottom > 0 && box.top < page.innerHeight && box.right > 0 && box.left < page.innerWidth;
        return { id: element.id || describe(element), isMarked: outlineStyle !== "none" && parseFloat(outlineWidth) >= 2, isInSight };
    };

    globalThis.pageFacts = { describeFocus, findCutOffTexts, findLowContrastTexts, findOverlaps, findRoleErrors };
})();
