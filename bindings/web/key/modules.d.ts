// bindings/web/build.sh replaces an import of a WebAssembly file by its bytes in base64.
declare module "*.wasm" {
    const base64: string;
    export default base64;
}
