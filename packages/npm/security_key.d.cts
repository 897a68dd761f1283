// Types of `require("hidlog")`: those of the module.
export * from "./security_key.js";
