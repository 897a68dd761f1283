export * from "./security_key.js";
