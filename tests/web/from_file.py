#!/usr/bin/env python3
"""Opens bindings/web/index.html as a file, without a server: it shows the example, and then a long log that a worker
reads."""

import sys
from pathlib import Path

from driver import Driver, is_installed

PAGE = Path(__file__).resolve().parents[2] / "bindings" / "web" / "index.html"

# Drops 5 MB of sessions, and records whether a worker responded.
DROP_LONG_LOG_SCRIPT = """
    globalThis.Worker = class extends Worker {
        constructor(...args) {
            super(...args);
            this.addEventListener("message", () => { document.documentElement.dataset.answered = "yes"; });
        }
    };
    const session = atob(HIDLOG_EXAMPLE).replace(/^[=#].*\\n/gm, "");
    const data = new DataTransfer();
    data.items.add(new File([session.repeat(Math.ceil(5e6 / session.length))], "long.log"));
    document.dispatchEvent(new DragEvent("drop", { dataTransfer: data, cancelable: true }));
    arguments[0]();
"""

# What a screen reader must find, by role and name.
REQUIRED_ROLES = [
    ("tree", "The lines of the log"),
    ("region", "Diagnosis"),
    ("region", "What happened"),
    ("button", "Open"),
    ("button", "Menu"),
    ("tree", "Fields"),
    ("treeitem", "2 rp: "),
    ("region", "Bytes"),
    ("toolbar", "Copy"),
    ("searchbox", "Search"),
    ("combobox", "Channel"),
    ("checkbox", "Fold transactions"),
    ("tab", "Drawing"),
    ("treeitem", "Registration: done at example.com"),
    ("complementary", "The selected line"),
]


def find_missing_roles(driver):
    """Returns the REQUIRED_ROLES missing from Chromium's accessibility tree, and the selected row if that is missing."""
    driver.run("document.getElementById('scroller').focus(); arguments[0]()")
    nodes = [
        node for node in driver.send_devtools_command("Accessibility.getFullAXTree")["nodes"] if not node.get("ignored")
    ]
    found = [
        (node["role"]["value"], node.get("name", {}).get("value", ""), node.get("properties", [])) for node in nodes
    ]
    texts = " ".join(name for _, name, _ in found)

    def has_role(role, name):
        return any(kind == role and (name in label or (role == "status" and name in texts)) for kind, label, _ in found)

    wrong = [role for role in REQUIRED_ROLES if not has_role(*role)]
    listed = next(properties for kind, _, properties in found if kind == "tree")
    if not any(property_["name"] == "activedescendant" for property_ in listed):
        wrong.append("the selected row")
    return wrong


def find_dropped_folder_error(driver):
    """Drops a folder, as a file manager does. Returns what is wrong, or an empty string."""
    folder = str(PAGE.parent)
    data = {"items": [], "files": [folder], "dragOperationsMask": 1}
    for kind in ("dragEnter", "dragOver", "drop"):
        driver.send_devtools_command("Input.dispatchDragEvent", type=kind, x=300, y=400, data=data)
    driver.wait_for("document.getElementById('notice').textContent")
    notice = driver.run("arguments[0](document.getElementById('notice').textContent)")
    return "" if notice == "web is a folder. Drop the log in it." else f"FAILED  a dropped folder: {notice}"


def find_no_script_error(driver):
    """Opens the page without JavaScript. Returns what is wrong, or an empty string."""
    driver.send_devtools_command("Emulation.setScriptExecutionDisabled", value=True)
    driver.open(PAGE.as_uri())
    nodes = driver.send_devtools_command("Accessibility.getFullAXTree")["nodes"]
    driver.send_devtools_command("Emulation.setScriptExecutionDisabled", value=False)
    texts = [node.get("name", {}).get("value", "") for node in nodes if not node.get("ignored")]
    return "" if "This page needs JavaScript" in texts else f"FAILED  the page without JavaScript: {texts}"


def main():
    if not is_installed():
        print("tests/web: chromedriver is missing (apt-get install chromium-driver)", file=sys.stderr)
        return 3
    with Driver() as driver:
        driver.open(PAGE.as_uri())
        driver.wait_for("document.documentElement.dataset.ready")
        faults = [find_dropped_folder_error(driver), find_no_script_error(driver)]
        driver.open("about:blank")
        driver.open(f"{PAGE.as_uri()}#registration")
        driver.wait_for("document.getElementById('diagnosis').dataset.side === 'none'")
        driver.wait_for("document.body.textContent.includes('authenticatorMakeCredential → CTAP2_OK')")
        wrong = find_missing_roles(driver)
        driver.run(DROP_LONG_LOG_SCRIPT)
        driver.wait_for("/^[\\d,]+ registrations: done\\./.test(document.getElementById('story').textContent)")
        driver.wait_for("document.documentElement.dataset.answered === 'yes'")
    print("ok  the page from a file, and its worker")
    print(f"FAILED  a screen reader's view lacks {wrong}" if wrong else "ok  a screen reader's view of it")
    print("\n".join(filter(None, faults)) or "ok  a dropped folder, and the page without JavaScript")
    return 1 if wrong or any(faults) else 0


if __name__ == "__main__":
    sys.exit(main())
