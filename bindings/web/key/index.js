// The exports of the script and the module.
export { send, sendDevToolsCommand } from "./devtools.js";
export { packedModule } from "./core_module.js";
export { current, install, installedKey } from "./install.js";
export { SecurityKey } from "./security_key.js";
export { ROOT_CERTIFICATE as attestationRoot } from "./attestation_certificates.js";
export { version } from "./version.js";
