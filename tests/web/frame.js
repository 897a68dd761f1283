// The script of a page in a frame: installs a key with the storage that the address names. With `tell` in the address,
// registers once, and posts the result to the parent page.
"use strict";

const words = new URLSearchParams(location.search);
const storages = { session: () => sessionStorage, local: () => localStorage };
const storage = storages[words.get("store")]?.();
globalThis.key = hidlogKey.install(storage ? { storage } : {});
// Whether the key is installed before the page's first script.
globalThis.atFirst = { isKey: hidlogKey.installedKey() === key };

const makePublicKeyOptions = (name = "ann") => ({
    challenge: new Uint8Array(32), rp: { name: "A service" },
    user: { id: new TextEncoder().encode(name), name, displayName: name },
    pubKeyCredParams: [{ type: "public-key", alg: -7 }], authenticatorSelection: { residentKey: "required" },
});

globalThis.register = (name) => navigator.credentials.create({ publicKey: makePublicKeyOptions(name) });

globalThis.signIn = async () => {
    const used = await navigator.credentials.get({ publicKey: { challenge: new Uint8Array(32) } });
    return new DataView(used.response.authenticatorData).getUint32(33);
};

const copyResponse = ({ response }) => {
    const { clientDataJSON, attestationObject } = response;
    return {
        clientDataJSON, attestationObject, publicKey: response.getPublicKey(),
        authenticatorData: response.getAuthenticatorData(),
    };
};

if (parent !== window && words.has("tell")) {
    register().then(
        copyResponse,
        (error) => ({ error: error.name, text: error.message }),
    ).then((outcome) => parent.postMessage(outcome, "*"));
}
