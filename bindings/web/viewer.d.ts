// The globals that the viewer's scripts set for one another. Each script is loaded after those that it uses.

declare namespace Viewer {
    /** A range of bytes, in all packets of the shown messages one after another. */
    interface ByteRange { from: number, to: number }
    interface Packet { number: number, bytes: Uint8Array }
    /** A line of an explanation: its level from 1, its bytes, and whether its inner fields are shown. */
    interface Field {
        text: string, level: number, ranges: ByteRange[], inner: Field[], isOpen: boolean, isMarked?: boolean,
    }
    /** A CBOR item: where it begins and ends, and its content after its head. An entry of a map begins with its key. */
    interface Span {
        major: number, argument: number, from: number, content: number, to: number, inner: Span[], key?: string,
        keyFrom?: number,
    }
    interface Line {
        number: number, place: number, text: string, kind: string, says: string, isPacket: boolean, isFault: boolean,
        byte(place: number): number, message: Message | null, source: Line | null, transaction: Transaction | null,
        channel: string | null, timeMs: Milliseconds, at: Milliseconds | null, replaced: string | undefined, log: Log,
    }
    interface Message {
        id: number, place: number, start: number, command: number, length: number, channel: string | null,
        received: number,
        isWhole: boolean, line: Line, lines: Line[], byteAt(place: number): number,
    }
    interface Transaction extends Message {
        all: Line[], end: string, by: Line | null, code: number | null, answer: KeyMessage | null, count: number,
    }
    interface KeyMessage extends Message { asks: Transaction | null }
    /** A timestamp: a bigint if it has more digits than a number is exact for. */
    type Milliseconds = number | bigint;
    type Numbers = Uint8Array | Uint16Array | Uint32Array | Int32Array;
    interface NumbersConstructor { new (length: number): Numbers }
    /** A growable typed array. */
    interface Column { values: Numbers, length: number, push(value: number): void }
    interface MessageTable {
        columns: Column[], length: number, add(): number, first: Column, last: Column, more: Column,
    }
    interface TransactionTable extends MessageTable {
        end: Column, by: Column, code: Column, answer: Column, count: Column, until: Column,
    }
    interface AnswerTable extends MessageTable { asks: Column }
    interface Log {
        bytes: Uint8Array, starts: Column, kinds: Column, latest: Column, owners: Column, messages: Column, end: number,
        transactions: TransactionTable, answers: AnswerTable, explained: Explained | null, sources: Map<number, number>,
        before: Log | null, length: number, add(kind: number, from: number, to: number): void,
        line(place: number): Line,
        message(id: number): Message | null, endOf(place: number): number, timestampAt(place: number): Milliseconds,
        byte(line: number, place: number): number, channelAt(line: number): number,
    }
    /** An explanation: a head, and the lines below it. */
    interface Words { head: string, below: string[] }
    /** The core's explanations, where each line's begins, and which continue after a later line. */
    interface OutputIndex { text: Uint8Array, starts: Numbers, later: Map<number, number>, sure: number }
    interface Explained extends OutputIndex {
        isLast: boolean, read: Map<number, Words>, has(place: number): boolean, words(place: number): Words,
        readWords(place: number): Words, linesAt(place: number): string[],
    }
    interface Session {
        log: Log, size: number, channels: string[], channelCount: number, transactions: number,
        invalidLine: Line | null,
        length: number, line(place: number): Line, slice(from: number, to: number): Line[],
        transaction(place: number): Transaction, transactionAt(place: number): number,
        startOf(transaction: number): number,
        kindAt(place: number): number, isInput(place: number): boolean,
        find(isWanted: (place: number) => boolean, from?: number): number,
    }
    interface Row {
        line: Line, transaction: Transaction | null, messages: Message[], kind: string, says: string,
        noise: boolean, differs: boolean, mark: string, outcome: string, isRefused: boolean,
        detail(): string[], has(words: string, channel: string): boolean,
    }
    /** Explains lines and messages (show_text.js). */
    interface LineTexts extends Required<TextOptions> {
        core: Core, jobs: Map<Log, TextJob>, explained(log: Log): Explained, ready(logs: Log[]): Promise<void> | null,
        readyEach(logs: Log[]): Promise<void>, explaining(log: Log): Promise<void>,
        finishJob(log: Log, job: TextJob, explained: Explained, error?: Error | null): void,
        keep(kept: Log[], logs: Log[]): void,
        endAll(): void, words(line: Line): Words, rest(line: Line): string, name(message: Message): string,
        says(line: Line): string, title(transaction: Transaction): string,
        requestRpId(transaction: Transaction): string | undefined, message(message: Message): string[],
        detail(line: Line, first?: string): string[],
    }
    /** How long logs are explained: see LineTexts in show_text.js. */
    interface TextOptions {
        atOnce?: number, most?: number, work?: ((bytes: Uint8Array) => TextJob) | null,
        changed?: (error: Error | null) => void,
    }
    interface TextJob extends Work<OutputIndex> { done?: Promise<void> }
    /** The first difference of a log from what the key sends, and the line to mark. */
    interface FoundDifference extends Difference { line: number, packet: number, marked: number }
    interface Job { end(): void }
    /** A pair of lines by their indexes; null if only one log has it. The word says how they differ. */
    interface Pair { one: number | null, other: number | null, word: string }
    interface Pause { milliseconds: number, height: number, isCut: boolean }
    interface Layout {
        height: number, scale: number, top(place: number): number, placeAt(y: number): number,
        pause(place: number): Pause,
    }
    /** How a command on a log ended (release/hidlog.h), without and with its output. */
    interface Fault { status: number, errorCode: number, line: number, packet: number }
    interface Outcome extends Fault { text: Uint8Array }
    interface Reader {
        bytes: Uint8Array, log: Log, from: number, isDone: boolean, invalidLineNumber: number,
        readUntil(end: number): void,
        session(size?: number): Session, soFar(): Session, outcome?: FoundTransactions,
    }
    /**
     * What the page shows. `core` and `shown` are null until the core is loaded, and `bytes` until a log is open;
     * functions that need them are not called before.
     */
    interface State {
        core: Core, shown: LineTexts, bytes: Uint8Array, name: string, snapshot: Uint8Array, snapshotName: string,
        difference: KeyDifference | null, texts: Record<string, Uint8Array>, sessions: Record<string, Session>,
        view: string, rows: number[], chosen: number, unfolded: Set<number>, isDrawn: boolean, isComparing: boolean,
        /** Line numbers with a word on what was found there (diagnosis_card.js). */
        marks: Map<number, string>, layout: Layout, placing: Job, job: Job, making: Job, summing: Job, diagnosing: Job,
    }
    type FileInput = HTMLInputElement & { files: FileList };
    /** The elements of the page that are more than an HTMLElement, by their id. */
    interface Elements {
        bar: HTMLProgressElement, channel: HTMLSelectElement, compare: HTMLButtonElement, download: HTMLButtonElement,
        drawing: HTMLCanvasElement, file: FileInput, fold: HTMLInputElement, "keys-dialog": HTMLDialogElement,
        "other-file": FileInput, save: HTMLButtonElement, search: HTMLInputElement, view: HTMLSelectElement,
    }
    /** An event of the page, whose target is an element. Only a field has a `type`. */
    type On<Kind extends Event, Target = HTMLElement & { type?: string }> = Kind & { target: Target };
    type ElementOf<Id> = Id extends keyof Elements ? Elements[Id] : HTMLElement;
    /** The core's transactions of a log, or why there are none. */
    interface FoundTransactions extends Partial<Fault> { text: Uint8Array, error?: string }
    type GetElement = <Id extends string>(id: Id) => ElementOf<Id>;
    type ReadInSlices = (bytes: Uint8Array) => ReadingSteps;
    type ReadQuiet = (bytes: Uint8Array, recorded: Session) => ReadingSteps;
    type RunReading = (steps: ReadingSteps, text: string, done: (reader: Reader) => void,
        first?: (reader: Reader) => void) => void;
    type ReadingSteps = Generator<Reader | Promise<FoundTransactions>, Reader, any>;
    interface Rejection { line: number, code: number, status: number, sentence: string }
    interface WasmKey { rejection(which: number): Omit<Rejection, "line"> | null }
    interface Core {
        exports: Record<string, any>, bytes: Uint8Array, updateViews(): void,
        hold(part: Uint8Array, offset: number, length: number): void,
        runHeld(command: string, length: number, snapshot: Uint8Array): Outcome,
        run(command: string, log: Uint8Array, snapshot?: Uint8Array): Outcome,
    }
    interface TextPart { text: string, before: number, share: number }
    type Report = (share: number) => void;
}

declare var hidlogBytes: {
    toHex(bytes: Uint8Array): string, fromHex(text: string): Uint8Array, fromBase64(text: string): Uint8Array,
    toBase64(bytes: Uint8Array): string, unpack(packed: Uint8Array): Uint8Array, STATUSES: Record<number, string>,
    PING: number, INIT: number, CBOR: number, KEEPALIVE: number, ERROR: number,
    PACKET_SIZE: number, INITIALIZATION_DATA: number, CONTINUATION_DATA: number, LAST_SEQUENCE: number,
    LONGEST_MESSAGE: number, BROADCAST: number, KEEPALIVE_MS: number,
};
declare var hidlogLog: {
    PACKET_DIGITS: number, NEWLINE: number,
    KIND: Record<
        "HOST" | "KEY" | "TICK" | "PRESENCE" | "NEW_KEY" | "SIGNATURE" | "COMMENT" | "NEED" | "COUNT" | "EMPTY", number
    >,
    END: Record<"ANSWERED" | "REFUSED" | "TIMED_OUT" | "REPLACED" | "DROPPED" | "FORGOTTEN" | "UNKNOWN", number>,
    Log: new (bytes: Uint8Array) => Viewer.Log, Column: new (Type: Viewer.NumbersConstructor) => Viewer.Column,
    Transaction: new (log: Viewer.Log, place: number) => Viewer.Transaction,
    KeyMessage: new (log: Viewer.Log, place: number) => Viewer.KeyMessage, hexDigitValues: Uint8Array,
    takeFirstLines(bytes: Uint8Array, count: number): Uint8Array, hasMatch(bytes: Uint8Array, pattern: RegExp): boolean,
    iterateTexts(bytes: Uint8Array): Iterable<Viewer.TextPart>,
    readTimestamp(bytes: Uint8Array, from: number, to: number): { at: Viewer.Milliseconds, next: number } | null,
};
declare var hidlog: { load(): Promise<Viewer.Core>, formatError(fault: Viewer.Fault): string };
declare var hidlogTransactions: { TableFiller: new (log: Viewer.Log, text: Uint8Array) => Viewer.TableFiller };
declare var hidlogSession: {
    LineReader: new (bytes: Uint8Array) => Viewer.Reader, BROADCAST: string,
    readSession(bytes: Uint8Array, core: Viewer.Core): Viewer.Session,
};
declare var hidlogExplained: {
    Explained: new (index: Viewer.OutputIndex, isLast: boolean) => Viewer.Explained,
    explain(core: Viewer.Core, bytes: Uint8Array): Viewer.Explained,
    explainFirst(core: Viewer.Core, bytes: Uint8Array): Viewer.Explained,
    indexOutput(outcome: Pick<Viewer.Outcome, "text" | "status" | "errorCode">, isCut?: boolean): Viewer.OutputIndex,
};
declare var hidlogRows: {
    makeRows(session: Viewer.Session, options: Viewer.RowOptions):
        Generator<{ rows: number[], place: number } | Promise<unknown>, number[], any>,
};
declare var hidlogCaptures: { isCapture(bytes: Uint8Array): boolean, readLogs(bytes: Uint8Array): Viewer.NamedLog[] };
declare var hidlogFileKinds: {
    UnreadableFileError: new (message: string, advice?: string, isImportable?: boolean) => Error,
    adviseOn(name: string, error: Error & { advice?: string, isImportable?: boolean }): string,
    checkFirstLine(bytes: Uint8Array, outcome: Viewer.Fault): void, explainLine(line: string): string,
    countComments(bytes: Uint8Array): number,
    findKindError(bytes: Uint8Array): Error | null,
};
declare var hidlogFileInput: {
    readFile(bytes: Uint8Array, most: number): Promise<{ logs: Viewer.NamedLog[], changes: string[] }>,
};
declare var hidlogJudge: {
    judge(core: Viewer.Core, log: Uint8Array, report?: Viewer.Report): Promise<Viewer.Judged>,
};
declare var hidlogDiagnosisWork: {
    examine(core: Viewer.Core, log: Uint8Array, snapshot: Uint8Array, report: (progress: Viewer.Progress) => void):
        Promise<Viewer.Examined>,
};
declare namespace Viewer {
    /** Runs a command in a worker. The outcome's type depends on the command. */
    interface RunInWorker {
        (core: Core, command: "examine", log: Uint8Array, snapshot: Uint8Array,
        onProgress: (progress: Progress) => void):
            Work<Examined>;
        (core: Core, command: "show", log: Uint8Array): Work<OutputIndex>;
        (core: Core, command: "judge", log: Uint8Array): Work<Judged>;
        (core: Core, command: string, log: Uint8Array, snapshot?: Uint8Array): Work<Outcome>;
    }
    interface Work<Result> extends Job { outcome: Promise<Result> }
    interface TableFiller { isDone: boolean, fillUntil(end: number): void }
    /** Which rows to make. `isFound` selects them, after `ready` is fulfilled. */
    interface RowOptions {
        isFolded: boolean, unfolded: Set<number>, isFound: ((row: number) => boolean) | null,
        ready?: Promise<unknown> | null,
    }
    interface NamedLog { name: string, bytes: Uint8Array }
    /** A violation of a rule of CTAP 2.1. */
    interface Finding {
        line: number, side: Side, level: string, section: string, relatedSections: string, rule: string,
        expected: string,
        actual: string,
    }
    type Side = "host" | "key" | "user" | "caller" | "capture" | "none";
    interface Judged { findings: Finding[], notes: string[], total: string, lostFrom: number | null }
    /** What is known before the rules are checked. */
    interface Compared { outcome: Fault, says: string, isOwn: boolean, hasPlaceholders: boolean, causes: Rejection[] }
    interface Examined extends Compared, Judged {}
    interface Progress { stage: string, share?: number, compared?: Compared }
}
/** A class of browsers that the types of TypeScript lack. */
declare class DecompressionStream {
    constructor(format: string);
    readonly readable: ReadableStream<Uint8Array>;
    readonly writable: WritableStream<Uint8Array>;
}
declare var hidlogSpans: {
    findSpans(bytes: Uint8Array, at: number): Viewer.Span | null, formatItem(bytes: Uint8Array,
    span: Viewer.Span): string,
    KIND: { BYTES: number, ARRAY: number, MAP: number },
};
declare var hidlogShown: {
    LineTexts: new (core: Viewer.Core, options?: Viewer.TextOptions) => Viewer.LineTexts,
    escapeInvisible(text: string): string,
};
declare var hidlogFields: {
    makeAllFields(messages: Viewer.Message[], explain: (message: Viewer.Message) => string[]):
        { fields: Viewer.Field[], packets: Viewer.Packet[] },
};
declare var hidlogFieldTree: {
    FieldTree: new (fields: Viewer.Field[], choose: (field: Viewer.Field | null) => void) =>
        { chosen: Viewer.Field | null, element: HTMLElement, selectByte(place: number): void },
};
declare var hidlogHexPane: {
    HexPane: new (element: HTMLElement, status: HTMLElement, choose: (place: number) => void) => {
        show(packets: Viewer.Packet[]): void, mark(ranges: Viewer.ByteRange[]): void, describe(isField: boolean): void,
        fit(): void,
    },
    describeRanges(ranges: Viewer.ByteRange[], packets: Viewer.Packet[]): string,
    readRanges(ranges: Viewer.ByteRange[], packets: Viewer.Packet[]): string,
};
declare var hidlogCopying: { copyText(text: string): boolean, copyOnShortcut(read: () => string | null): void };
declare var hidlogDetail: {
    makeTree(row: Viewer.Row, texts: Viewer.LineTexts, isMarked?: (line: string) => boolean): HTMLElement,
    show(row: Viewer.Row, texts: Viewer.LineTexts, before: string): void,
    shown: { tree: { element: HTMLElement } | null },
    start(tell: (text: string) => void): void,
};
declare var hidlogMenu: { start(): void };
declare var hidlogLayout: {
    EvenLayout: new (count: number, rowHeight: number) => Viewer.Layout,
    TimedLayout: new (pauses: Float64Array, rowHeight: number) => Viewer.Layout,
    findPauses(count: number, timeOf: (place: number) => number): Generator<number, Float64Array, any>,
    formatPause(milliseconds: number): string, roundDown(most: number): number,
};
declare var hidlogAlignment: {
    align(one: Viewer.Session, other: Viewer.Session): Generator<number, Viewer.Pair[], any>,
};
declare var hidlogBackground: {
    runGenerator<Part, Result>(steps: Generator<Part, Result, any>,
        part: (part: Exclude<Part, Promise<any>>) => void,
        done: (result: Result) => void, milliseconds?: number): Viewer.Job,
    prepareSources(): Promise<void>, readSources(): Record<string, string>, runInWorker: Viewer.RunInWorker,
};
/** How a line of a log differs from a line of another log: both lines, a sentence, and their explanations. */
interface Difference extends DifferingLines { says: string, explained: string[][] }
interface DifferingLines { has: Viewer.Line | null | undefined, sends: Viewer.Line | null | undefined }
declare var hidlogDifference: {
    explain(found: DifferingLines, shown: Viewer.LineTexts): string[][],
    find(recorded: Viewer.Session, replayed: Viewer.Session, outcome: { line: number, packet: number }):
        Viewer.FoundDifference,
    makeNodes(found: Difference, makeTree: (isMarked: (line: string) => boolean) => HTMLElement,
        names?: { own: string, other: string }): (Node | string)[],
    toSentence(found: Difference): string,
};
declare var hidlogDiagnosis: {
    SIDE_NAMES: Record<Viewer.Side, string>, assignFindings(examined: Viewer.Examined): Viewer.Examined,
    decide(examined: Viewer.Checked, shown: Viewer.ShownLog): Viewer.Verdict,
    describeMatch(compared: Viewer.Compared): string, formatFinding(finding: Viewer.Finding): string,
    judgeFile(why: string, advice?: string): Viewer.Verdict,
    judgeUnreadable(outcome: Viewer.Fault, reason: string, text: string): Viewer.Verdict,
};
declare var hidlogIncomplete: {
    findMissing(session: Viewer.Session, examined: Viewer.Checked, difference: Viewer.KeyDifference): Viewer.Missing | null,
    explainFinding(session: Viewer.Session, finding: Viewer.Finding): Viewer.Missing | null,
};
declare var hidlogDrawing: { draw(canvas: HTMLCanvasElement, drawing: Viewer.Drawing): void, HEAD_HEIGHT: number };
declare namespace Viewer {
    /** Who is at fault, in which line, why, and what to do. */
    interface Verdict { level: string, side: Side, line: number, title: string, why: string[], advice: string }
    /** What a recording lacks, why that is so, and what to do. */
    interface Missing { title: string, why: string, advice: string }
    /** The results of an examination, without the totals. */
    type Checked = Omit<Examined, "total">;
    /** A difference from what the key sends, in a sentence, and whether the log also reports NO_CREDENTIALS there. */
    interface KeyDifference extends FoundDifference { sentence: string, isRejection: boolean }
    interface ShownLog { session: Session, shown: LineTexts, difference: KeyDifference | null }
    /** What a sequence diagram draws: rows from `first` on, at their places, and the chosen one. */
    interface Drawing {
        count: number, rowAt(place: number): Row | null, first: number, layout: Layout, scrollTop: number,
        rowHeight: number,
        channels: string[], chosen: number,
    }
    /** The lifelines: their names and places, and whether the page is narrow. */
    interface Lifelines {
        names: string[], places: number[], ofChannel(channel: string | null): number, key: number, caller: number,
        isNarrow: boolean,
    }
    interface Pen {
        to: CanvasRenderingContext2D, width: number, height: number, styles: Map<string, string>, behind: string,
        colour(name: string): string,
        line(x1: number, y1: number, x2: number, y2: number, colour: string, dashes?: number[], wide?: number): void,
        arrow(x1: number, x2: number, y: number, colour: string, dashes?: number[]): void,
        widthOf(text: string): number,
        label(text: string, x: number, y: number, colour: string, most: number, align?: string): void,
    }
}
declare var hidlogStory: {
    describeKind(transaction: Viewer.Transaction): string, describeEnd(transaction: Viewer.Transaction): string,
    isSuccessful(transaction: Viewer.Transaction): boolean, isUserCommand(transaction: Viewer.Transaction): boolean,
    summarize(session: Viewer.Session): Generator<Map<string, Map<string, number>>, string, any>,
};
declare var hidlogViewer: {
    MAX_BYTES_AT_ONCE: number, MAX_BYTES: number, ROW_HEIGHT: number, EXPLAIN_OPTIONS: Viewer.TextOptions,
    Row: new (line: Viewer.Line, transaction?: Viewer.Transaction | null) => Viewer.Row, state: Viewer.State,
    decoder: TextDecoder, getElement: Viewer.GetElement,
    takeFirstLines(bytes: Uint8Array, count: number): Uint8Array, hasResponses(): boolean,
    readSession(bytes: Uint8Array, core: Viewer.Core): Viewer.Session, formatMegabytes(bytes: number): string,
    rowAt(place: number): Viewer.Row | null, getCurrentSession(): Viewer.Session, markTab(): void, placeRows(): void,
    scrollToRow(isMiddle?: boolean): void,
    render(): void, showDetail(): void, selectRow(place: number, isMiddle?: boolean): void,
    refresh(after?: () => void): void,
    showNotice(text: string, isFault?: boolean): void, showProgress(text: string, job: Viewer.Job): void,
    finishReading(): void, setView(view: string, after?: () => void): void,
    prepareView(view: string, done: () => void): void,
    runAfterExplaining(sessions: Viewer.Session[], done: () => void): void,
    readInSlices: Viewer.ReadInSlices, runWithProgressBar: Viewer.RunReading,
};
declare var hidlogCard: {
    cancel(): void, clear(): void, goToLine(number: number): void, judge(bytes: Uint8Array): Promise<Viewer.Judged>,
    showUnreadableFile(why: string, advice: string): void, start(outcome: Viewer.Fault, reason: string): void,
};
declare var hidlogOpening: {
    cleanName(name: string): string, enqueue(open: () => unknown): Promise<unknown>,
    openBytes(name: string, bytes: Uint8Array): Promise<boolean>,
    openFile(file: File): Promise<unknown>, openFiles(files: File[]): Promise<unknown>,
    openOtherLog(file: File): Promise<unknown>,
    waitFor(promise: Promise<unknown>): void,
};
declare var hidlogTwoLogs: {
    close(): void, compare(name: string, bytes: Uint8Array): void, setShown(isShown: boolean): void, start(): void,
    two: { session: Viewer.Session | null, pairs: Viewer.Pair[] },
};
declare var hidlogWasmKey: {
    WasmKey: new (exports: Record<string, any>, snapshot: Uint8Array) => Viewer.WasmKey,
    playLine(key: Viewer.WasmKey, line: string): void,
};
declare var hidlogSave: { makePage(state: Viewer.SavedState): Promise<string> };
declare namespace Viewer {
    interface SavedState { name: string, bytes: Uint8Array, snapshot: Uint8Array }
}
/** The rules translated from Python (dist/judge.js): their objects have Python's attributes. */
declare var hidlogPython: any;
/** Runs the rules, and verifies the signatures that they check. */
declare function hidlogVerified(rules: () => any): Promise<any>;
declare var HIDLOG_SOURCES: string;
declare var HIDLOG_WASM: string;
declare var HIDLOG_EXAMPLE: string;
/** Globals of a saved page: its log, the log's name, and the snapshot with which it is played, if any. */
declare var HIDLOG_LOG: string | undefined;
declare var HIDLOG_LOG_NAME: string;
declare var HIDLOG_SNAPSHOT: string | undefined;
