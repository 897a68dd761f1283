// The key as a module, over the script beside it.
import "./security_key.js";

export const {
    SecurityKey, attestationRoot, current, install, installedKey, send, sendDevToolsCommand, version,
} = globalThis.hidlogKey;
