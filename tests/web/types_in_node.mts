// Type checks of the key's declarations in a node project without lib "dom".
import { install, SecurityKey } from "../../bindings/web/dist/security_key.mjs";

export const suite = async (): Promise<string> => {
    const key = install({ origin: "https://example.com", hasUserVerification: true, isUserVerified: true });
    key.transport = "internal";
    // @ts-expect-error an unknown transport
    key.transport = "pigeon";
    // @ts-expect-error not an origin
    install({ origin: 1 });
    key.addEventListener("credentialAdded", ({ detail }) => {
        const name: string = detail.credential.userName;
        return name;
    });
    key.presence = (_, signal) => (signal.aborted ? "denied" : "granted");
    const other = new SecurityKey({ storage: { getItem: () => null, setItem: () => {} } });
    const made = await other.create({ publicKey: { challenge: new Uint8Array(1) } });
    return made.id;
};
