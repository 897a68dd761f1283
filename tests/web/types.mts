// Type checks of the key's declarations: valid calls, and expected errors.
import {
    install, installedKey, SecurityKey, sendDevToolsCommand, type Credential, type State,
} from "../../bindings/web/dist/security_key.mjs";

export const suite = async (publicKey: PublicKeyCredentialCreationOptions): Promise<Credential[]> => {
    const key = install({
        presence: "granted", delay: 10, store: sessionStorage, transport: "internal", hasUserVerification: true,
        allowedOrigins: ["https://staging.example.com"],
    });
    key.presence = (question) => (question.startsWith("Register") ? "granted" : "denied");
    // @ts-expect-error a typo
    key.presence = "grantd";
    // @ts-expect-error an unknown option
    install({ presense: "granted" });
    key.faults.status = "KEY_STORE_FULL";
    key.faults.clear();
    const state: State = key.state();
    const other = new SecurityKey({ state, account: (all) => all.findIndex(({ userName }) => userName === "ann") });
    const made: PublicKeyCredential = await other.create({ publicKey });
    key.addEventListener("credentialAsserted", ({ detail }) => console.log(detail.credential.signCount));
    const { credential } = await key.once("credentialAdded");
    await key.setCredentialProperties(credential.credentialId, { signCount: 1 });
    await sendDevToolsCommand("WebAuthn.clearCredentials", { authenticatorId: made.id });
    hidlogKey.installedKey()?.uninstall();
    key.choose(0).catch(() => {});
    key.reportOnFailure({ onTestFailed: (report) => report() });
    key.reportOnFailure({ after: () => {}, passed: false });
    // @ts-expect-error not the context of a test
    key.reportOnFailure({ passed: false });
    console.error(key.report().length);
    return installedKey()?.getCredentials() ?? [];
};
