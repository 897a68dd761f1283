// Tests transactions in bindings/web/index.html: in long logs, where a worker finds them, and on channels that are not
// tracked.
import { expect, run, waitUntil } from "./harness.js";
import {
    chooseValue, dropFile, encodeText, fetchExample, frame, getElement, getPage, listRows, listTexts, openLog, readCard,
    readNotice, search, waitForCard,
} from "./viewing.js";

frame.height = 700;

/** A session repeated to 5 MB. */
const makeLongLog = async () => {
    const session = new TextDecoder().decode(await fetchExample("sign_in.log")).replace(/^[=#].*\n/gm, "");
    return session.repeat(Math.ceil((5 * 1024 * 1024) / session.length));
};

/** Opens 5 MB of sessions, and returns the summary. */
const openSessions = async (Worker) => {
    const log = await makeLongLog();
    await openLog("", null);
    getPage().Worker = Worker ?? getPage().Worker;
    dropFile("sessions.log", encodeText(log));
    await waitUntil(() => /^sessions\.log: \d+ lines/.test(readNotice()) && getElement("story").textContent, "the lines");
    // The rows are shown first, and their explanations later.
    await waitUntil(() => listTexts().some((text) => text.includes("Registration: done at example.com")), "the first words");
    const isLastRow = (row) => row?.getAttribute("aria-posinset") === row?.getAttribute("aria-setsize");
    const showsLastWords = () => {
        if (isLastRow(listRows().at(-1))) {
            return !listTexts().join().includes("…");
        }
        // Scrolls again, since the rows may move while the page around them changes.
        getElement("scroller").scrollTop = getElement("scroller").scrollHeight;
        return false;
    };
    await waitUntil(showsLastWords, "the words of the last lines");
    const signIn = "Sign-in: done at example.com  ·  authenticatorGetAssertion → CTAP2_OK";
    expect(listTexts().at(-1).includes(signIn), listTexts().at(-1));
    await waitUntil(() => /registrations: done/.test(getElement("story").textContent), "the story");
    return getElement("story").textContent;
};

/** Long logs are read by a worker, or by the page itself if workers are not available. */
const testWithoutWorker = async () => {
    const story = await openSessions();
    expect(/^(\d+) registrations: done\. [\d,]+ sign-ins: done\./.test(story.replaceAll(",", "")), story);
    class RefusedWorker {
        constructor() {
            throw new Error("workers are not available");
        }
    }
    class BlockedWorker {
        postMessage() {
            setTimeout(() => this.onerror(new Event("error")));
        }

        terminate() {
            this.onerror = null;
        }
    }
    for (const Worker of [RefusedWorker, BlockedWorker]) {
        expect(await openSessions(Worker) === story, getElement("story").textContent);
    }
};

/** Search and differences also work in a long log, whose explanations are shown after the rows. */
const testLateExplanations = async () => {
    const log = await makeLongLog();
    await openLog("", null);
    dropFile("changed.log", encodeText(log.replace("470100000002", "470100000007")));
    await waitUntil(() => /^changed\.log: \d+ lines/.test(readNotice()) && getElement("story").textContent, "the lines");
    await search("search", "signcount 7");
    await waitUntil(() => / of \d+ lines$/.test(getElement("count").textContent), "what is found");
    await waitUntil(() => listRows().length === 1 && listTexts()[0].includes("Sign-in: done at example.com"), "the row's words");
    const { side, text } = await waitForCard();
    expect(side === "key" && text.includes("The log has signCount 7; the key sends signCount 2."), text);
    expect(getElement("search").value === "signcount 7", "the search is kept when the verdict comes");
    getElement("diagnosis").querySelector("button").click();
    const readDetail = () => getElement("detail-text").textContent;
    await waitUntil(() => readDetail().includes("The log: signCount 7"), "the detail");
    expect(readDetail().includes("The key: signCount 2"), readDetail());
};

/** For a long log, the difference is shown before the rules are checked. The check can be cancelled and restarted. */
const testLongExamination = async () => {
    await openLog("", null);
    const log = (await makeLongLog()).replace("470100000002", "470100000007");
    dropFile("changed.log", encodeText(log));
    const { side, line, text } = await waitForCard();
    const changed = log.split("\n").findIndex((each) => each.includes("470100000007")) + 1;
    expect(side === "key" && line === String(changed) && text.includes("The log has signCount 7"), `${side} ${line}: ${text}`);
    expect(text.includes("The rules of CTAP 2.1 are still being checked."), text);
    await waitUntil(() => getElement("progress-text").textContent.startsWith("Checking the rules of CTAP 2.1: "), "the rules");
    await waitUntil(() => getElement("bar").value > 0, "the share that is done");
    getElement("cancel").click();
    expect(getElement("progress").hidden && getElement("diagnosis").textContent.includes("was cancelled"), "cancelled");
    expect(getElement("diagnosis").textContent.includes("The log has signCount 7"), "what is known is kept");
    getElement("examine").click();
    await waitUntil(() => !getElement("progress").hidden, "it begins again");
    getElement("cancel").click();
};

/** A log of half a megabyte is examined completely. The second session uses the same channel as the first one. */
const testWholeExamination = async () => {
    await openLog("", null);
    const session = new TextDecoder().decode(await fetchExample("sign_in.log")).replace(/^[=#].*\n/gm, "");
    dropFile("half.log", encodeText(session.repeat(Math.ceil((512 * 1024) / session.length))));
    await waitUntil(() => getElement("diagnosis").dataset.done === "yes", "the end");
    const { side, line, text } = readCard();
    // The response to the INIT with which the second session begins.
    const expected = session.split("\n").length + 1;
    expect(side === "key" && line === String(expected) && text.includes(`Line ${expected} violates a rule.`), text.slice(0, 300));
    expect(!text.includes("still being checked") && / MUST violations, /.test(text), text.slice(0, 300));
    expect(getElement("progress").hidden, "the progress is over");
};

/** The user cancels reading a long log, and opens another log. */
const testCancel = async () => {
    await openLog("", null);
    dropFile("long.log", encodeText(`t 1\n`.repeat(5 * 1024 * 1024)));
    await waitUntil(() => !getElement("progress").hidden, "the progress");
    getElement("cancel").click();
    const shown = /^long\.log: cancelled\. The first (\d+) lines are shown; open it again to read all\.$/.exec(readNotice())?.[1];
    expect(shown === getElement("count").textContent.split(" ")[0], readNotice());
    dropFile("two_hosts.log", await fetchExample("two_hosts.log"));
    await waitUntil(() => /^two_hosts\.log/.test(readNotice()), "the other log");
};

/** Six open channels are tracked. For a further channel, the page shows that it is not tracked. */
const testUntrackedChannels = async () => {
    const makePacket = (channel) => `> 0 0000000${channel}90000104${"0".repeat(112)}\n`;
    await openLog("seven.log", encodeText([1, 2, 3, 4, 5, 6, 7].map(makePacket).join("")), true);
    chooseValue("view", "recorded");
    const untracked = listTexts().filter((text) => text.includes("no longer tracked: too many open transactions"));
    expect(untracked.length === 1 && untracked[0].includes("not tracked after line 7"), listTexts().join("\n"));
};

run({
    "long logs without a worker": testWithoutWorker,
    "words of a long log": testLateExplanations,
    "a long examination": testLongExamination,
    "a whole examination": testWholeExamination,
    "reading is cancelled": testCancel,
    "more channels than are followed": testUntrackedChannels,
});
