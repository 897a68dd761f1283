// The key for `require`: runs the script security_key.js, and exports its functions.
"use strict";

require("./security_key.js");

const { SecurityKey, current, install, installedKey, send, sendDevToolsCommand, version } = globalThis.hidlogKey;
module.exports = { SecurityKey, current, install, installedKey, send, sendDevToolsCommand, version };
