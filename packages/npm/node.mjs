// The key for node.
import "./node18.mjs";

export * from "./security_key.mjs";
