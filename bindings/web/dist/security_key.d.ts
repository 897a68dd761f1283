// Types of the module security_key.mjs, and of the global set by the script security_key.js. They do not need lib
// "dom", but use its types if a project has it.

/** A platform type by its global name, or the parts of it that are needed. */
type Global<Name extends string, Else> =
    typeof globalThis extends { [Key in Name]: { prototype: infer Type } } ? Type : Else;
type Signal = Global<"AbortSignal", { readonly aborted: boolean; readonly reason: any }>;
type StorageLike =
    Global<"Storage", { getItem(key: string): string | null; setItem(key: string, value: string): void }>;
type KeyEvent<Detail> = Global<"Event", { readonly type: string }> & { readonly detail: Detail };
type Container = Global<"CredentialsContainer", {
    create(options?: { publicKey?: any; signal?: any; mediation?: any }): Promise<any>;
    get(options?: { publicKey?: any; signal?: any; mediation?: any }): Promise<any>;
}>;
type CreationOptions = NonNullable<Parameters<Container["create"]>[0]>;
type RequestOptions = NonNullable<Parameters<Container["get"]>[0]>;
type PublicKey = Global<"PublicKeyCredential", {
    readonly id: string; readonly rawId: ArrayBuffer; readonly type: string; readonly response: any;
    readonly authenticatorAttachment: string | null;
    getClientExtensionResults(): any; toJSON(): any;
}>;

/** What the user does when asked for a touch. "click" asks with two buttons in the page; "none" does nothing. */
export type PresenceOutcome = "granted" | "denied" | "timeout" | "click" | "none";
export type Presence =
    PresenceOutcome | ((question: string, signal: Signal) => PresenceOutcome | Promise<PresenceOutcome>);

/** The context of a test of Vitest, or of node 20.12 or later: the argument of the test, or of beforeEach's function. */
export type TestContext =
    { onTestFailed(report: () => void): unknown } | { after(report: () => void): unknown; readonly passed: boolean };

/** A credential. Bytes are base64url. */
export interface Credential {
    credentialId: string;
    isResidentCredential: boolean;
    rpId: string;
    /** PKCS #8. */
    privateKey: string;
    userHandle: string;
    userName: string;
    userDisplayName: string;
    signCount: number;
    backupEligibility: boolean;
    backupState: boolean;
    /** Of a credential with a large blob. */
    largeBlob?: string;
}

/** Bytes, or base64 or base64url. */
export type BytesSource = string | ArrayBuffer | ArrayBufferView;

/** A credential to add. A missing ID (32 bytes) or private key is generated. */
export interface NewCredential {
    rpId: string;
    /** 1 to 1023 bytes. */
    credentialId?: BytesSource;
    isResidentCredential?: boolean;
    privateKey?: BytesSource;
    userHandle?: BytesSource;
    userName?: string;
    userDisplayName?: string;
    signCount?: number;
    backupEligibility?: boolean;
    backupState?: boolean;
    /** Of a discoverable credential, if the key supports the extension largeBlob. */
    largeBlob?: BytesSource;
}

export type CredentialProperties = Partial<Pick<Credential,
    "signCount" | "userName" | "userDisplayName" | "userHandle" | "isResidentCredential" | "backupEligibility"
    | "backupState">>;

/** An index, a user name, a credential ID, or a function of the accounts that returns an index or an account. */
export type AccountSelector =
    number | string | ((accounts: Credential[]) => number | Credential | Promise<number | Credential>);

/** What outlives a page, as JSON. Contains private keys. */
export interface State {
    format: string;
    timeMs: number;
    credentials: (Credential & { rpIdHash: string; coreId?: string; coreKey?: string; extensions?: object })[];
}

export type Protocol = "ctap1/u2f" | "ctap2" | "ctap2_1";
export type Transport = "usb" | "nfc" | "ble" | "smart-card" | "hybrid" | "internal";

/** What a browser sees of the key, by the names of WebDriver's virtual authenticators. */
export interface AuthenticatorOptions {
    /** The protocol that pages see [default: "ctap2"]. */
    protocol?: Protocol;
    /** Whether it supports user verification [default: false]. */
    hasUserVerification?: boolean;
    /** Whether user verification succeeds [default: false]. */
    isUserVerified?: boolean;
    /** The transport [default: "usb"]. "internal" is a platform authenticator. */
    transport?: Transport;
    /** Whether it supports discoverable credentials [default: true]. */
    hasResidentKey?: boolean;
    /** The flags BE and BS of new credentials [default: false]. */
    defaultBackupEligibility?: boolean;
    defaultBackupState?: boolean;
    /**
     * The attestation [default: "self"]: the core's own, whatever a page requests; none; or "basic", which is packed by a
     * certificate of the test root if a page requests an attestation, and none if not, as in browsers.
     */
    attestation?: "self" | "none" | "basic";
    /** The AAGUID, a UUID in lowercase [default: zeros]. */
    aaguid?: string;
    /** The algorithms of credentials: -7 (ES256), -8 (EdDSA) and -257 (RS256) [default: -7 alone]. */
    algorithms?: (-7 | -8 | -257)[];
    /** What answers mediation "conditional": an account selected by the test [default], or the first that can sign in. */
    autofill?: "selected" | "automatic";
    /** The supported extensions [default: none]. A key with credBlob has credProtect, too. */
    extensions?: Extension[];
}

export type Extension = "prf" | "largeBlob" | "credProtect" | "credBlob" | "minPinLength";

export interface Options extends AuthenticatorOptions {
    /** What the user does [default: "granted"]. */
    presence?: Presence;
    /** Milliseconds until the user acts. */
    delay?: number;
    /** The account that signs in, if the page names none [default: the newest]. */
    account?: AccountSelector;
    /** Returns the timestamp of each input in whole milliseconds. `passed` is the time waited since the last one. */
    clock?: (passed: number) => number;
    /** A state from `key.state()`. */
    state?: State;
    /** Stores the state, so that it survives reloads: sessionStorage, or localStorage for several tabs. */
    storage?: Pick<StorageLike, "getItem" | "setItem">;
    /** @deprecated Use storage. */
    store?: Pick<StorageLike, "getItem" | "setItem">;
    /** Whether to record sessions [default: true]. The newest 32 MB are kept in memory. */
    record?: boolean;
    /** The origin of requests [default: the page's]. In a page it must be one of tests, or allowed. */
    origin?: string;
    /** More origins to allow, besides localhost, *.localhost, *.test, *.example and file pages. */
    allowedOrigins?: string[];
    /** @deprecated Use allowedOrigins. */
    allowOrigins?: string[];
    /** WebCrypto, if not globalThis.crypto. */
    crypto?: Global<"Crypto", { readonly subtle: any; getRandomValues(array: any): any }>;
}

/** Faults to inject into responses, all off at first. Each is a comment in the log. */
export interface Faults {
    /** Respond to every request with this status, a number or a name such as "KEY_STORE_FULL". */
    status: number | string | null;
    /** Milliseconds before each response that needs a key pair or a signature, with KEEPALIVEs. */
    delay: number;
    /** Number of bytes to remove from the end of each response. */
    truncateBy: number;
    /** Sign with a different private key. */
    badSignature: boolean;
    /** Repeat the signature counter of the previous response, with a valid signature. */
    staleSignCount: boolean;
    /** The RP ID whose hash the authenticator data has, with a valid signature. */
    wrongRpId: string | null;
    /** @deprecated Use truncateBy. */
    cutShort: number;
    /** @deprecated Use badSignature. */
    wrongSignature: boolean;
    /** @deprecated Use staleSignCount. */
    counterStays: boolean;
    /** @deprecated Use wrongRpId. */
    otherRp: string | null;
    /** Turns all faults off. */
    clear(): void;
}

export interface Events {
    credentialAdded: { credential: Credential };
    credentialAsserted: { credential: Credential };
    credentialDeleted: { credentialId: string };
    credentialUpdated: { credential: Credential };
}

/** A session: its index, from 1, the snapshot it starts with, for `hidlog check --load`, and its log. */
export interface Recording {
    index: number;
    snapshot: Uint8Array;
    log: string;
}

export class SecurityKey {
    constructor(options?: Options);
    presence: Presence;
    delay: number;
    account: AccountSelector;
    readonly faults: Faults;
    protocol: Protocol;
    hasUserVerification: boolean;
    isUserVerified: boolean;
    transport: Transport;
    hasResidentKey: boolean;
    defaultBackupEligibility: boolean;
    defaultBackupState: boolean;

    /** The current recording: a log for `hidlog check`. Changing credentials by a method starts a new one. */
    log(): string;
    /** All recordings; with storage also those of earlier pages and other tabs. Storage keeps the newest megabyte. */
    recordings(): Recording[];
    state(): State;
    /**
     * The last registrations and sign-ins, each with its options and the credential or the reason of the error, and the
     * faults that are enabled or took effect. Empty if there are none.
     */
    report(): string;
    /** Prints the report of what the page does from now on, if the test fails. */
    reportOnFailure(context: TestContext): void;

    create(options: CreationOptions): Promise<PublicKey>;
    get(options: RequestOptions): Promise<PublicKey>;
    /** Selects the account of the pending sign-in with mediation "conditional", or of the next one. */
    selectAccount(selector?: AccountSelector): Promise<Credential>;
    /** @deprecated Use selectAccount. */
    choose(selector?: AccountSelector): Promise<Credential>;

    /** Aborts a pending request with an AbortError, and releases the storage. */
    close(): void;

    /** Restores the credentials of a state. */
    restore(state: State): Promise<void>;
    addCredential(credential: NewCredential): Promise<Credential>;
    getCredentials(): Promise<Credential[]>;
    getCredential(credentialId: BytesSource): Promise<Credential>;
    removeCredential(credentialId: BytesSource): Promise<void>;
    removeAllCredentials(): Promise<void>;
    clearCredentials(): Promise<void>;
    setCredentialProperties(credentialId: BytesSource, properties: CredentialProperties): Promise<void>;
    setAutomaticPresenceSimulation(enabled: boolean): Promise<void>;
    setUserVerified(isUserVerified: boolean): Promise<void>;
    /** Sets all these options, or none if one is invalid. */
    setAuthenticatorOptions(options: AuthenticatorOptions): void;
    /** @deprecated Use setAuthenticatorOptions. */
    setAbilities(options: AuthenticatorOptions): void;

    /** Resolves to the detail of the next event of a type. */
    once<Type extends keyof Events>(type: Type): Promise<Events[Type]>;
    addEventListener<Type extends keyof Events>(
        type: Type, listener: (event: KeyEvent<Events[Type]>) => void, options?: boolean | { once?: boolean },
    ): void;
    removeEventListener<Type extends keyof Events>(
        type: Type, listener: (event: KeyEvent<Events[Type]>) => void, options?: boolean,
    ): void;
}

export interface InstalledKey extends SecurityKey {
    /** Restores what `install` replaced, and aborts a pending request. */
    uninstall(): void;
}

/** Replaces navigator.credentials by a new key. */
export function install(options?: Options): InstalledKey;

/** The installed key, or null. */
export function installedKey(): InstalledKey | null;

/** @deprecated Use installedKey. */
export function current(): InstalledKey | null;

/** Runs a command of Chromium's DevTools domain WebAuthn on the installed key, such as "WebAuthn.getCredentials". */
export function sendDevToolsCommand(command: string, parameters?: object): Promise<any>;

/** @deprecated Use sendDevToolsCommand. */
export function send(command: string, parameters?: object): Promise<any>;

/** The test root of attestation "basic", as DER in base64. Trust it in tests only: its private keys are public. */
export const attestationRoot: string;

/** The version of hidlog. */
export const version: string;

declare global {
    var hidlogKey: {
        version: typeof version; attestationRoot: typeof attestationRoot;
        SecurityKey: typeof SecurityKey; install: typeof install; installedKey: typeof installedKey;
        sendDevToolsCommand: typeof sendDevToolsCommand; current: typeof current; send: typeof send;
    };
}
