// Tests a Java service with a `hidlog browser` process. Debian has no WebAuthn library for Java, so the test verifies
// the signature itself. Run it:
//
//     java SignIn.java hidlog browser
import java.io.BufferedReader;
import java.io.IOException;
import java.io.PrintWriter;
import java.nio.charset.StandardCharsets;
import java.security.KeyFactory;
import java.security.MessageDigest;
import java.security.PublicKey;
import java.security.Signature;
import java.security.spec.X509EncodedKeySpec;
import java.util.ArrayList;
import java.util.Base64;
import java.util.List;
import java.util.regex.Matcher;
import java.util.regex.Pattern;

public class SignIn {
    private static final String CHALLENGE = "AAECAwQFBgcICQoLDA0ODw";
    private static final String ORIGIN = "https://example.com";
    private static final String CREATE = """
        {"create": {"rp": {"id": "example.com", "name": "Example"}, "challenge": "%s",
        "user": {"id": "YW5u", "name": "ann", "displayName": "Ann"},
        "pubKeyCredParams": [{"type": "public-key", "alg": -7}]}}""";
    private static final String GET = """
        {"get": {"challenge": "%s", "rpId": "example.com", "allowCredentials": [{"type": "public-key", "id": "%s"}]}}""";

    private final PrintWriter commands;
    private final BufferedReader results;

    SignIn(Process browser) {
        commands = new PrintWriter(browser.outputWriter(), true);
        results = browser.inputReader();
    }

    /** Sends a command and returns its result. */
    String call(String command) throws IOException {
        commands.println(command.replace("\n", " "));
        return results.readLine();
    }

    /** Returns a string member of a result. A test suite would use its JSON library. */
    static String member(String result, String name) {
        Matcher found = Pattern.compile("\"" + name + "\": ?\"([^\"]*)\"").matcher(result);
        if (!found.find()) {
            throw new IllegalStateException(name + " is missing in " + result);
        }
        return found.group(1);
    }

    static byte[] bytes(String result, String name) {
        return Base64.getUrlDecoder().decode(member(result, name));
    }

    /** Verifies the client data's type, challenge and origin. */
    static void verifyClientData(String result, String type) {
        String json = new String(bytes(result, "clientDataJSON"), StandardCharsets.UTF_8);
        List<String> found = List.of(member(json, "type"), member(json, "challenge"), member(json, "origin"));
        if (!found.equals(List.of(type, CHALLENGE, ORIGIN))) {
            throw new IllegalStateException("unexpected client data: " + json);
        }
    }

    public static void main(String[] words) throws Exception {
        List<String> command = new ArrayList<>(List.of(words));
        command.addAll(List.of("--origin", ORIGIN));
        Process process = new ProcessBuilder(command).redirectError(ProcessBuilder.Redirect.INHERIT).start();
        SignIn browser = new SignIn(process);
        String made = browser.call(CREATE.formatted(CHALLENGE));
        verifyClientData(made, "webauthn.create");
        PublicKey key = KeyFactory.getInstance("EC").generatePublic(new X509EncodedKeySpec(bytes(made, "publicKey")));
        String get = GET.formatted(CHALLENGE, member(made, "id"));
        String used = browser.call(get);
        verifyClientData(used, "webauthn.get");
        Signature signature = Signature.getInstance("SHA256withECDSA");
        signature.initVerify(key);
        signature.update(bytes(used, "authenticatorData"));
        signature.update(MessageDigest.getInstance("SHA-256").digest(bytes(used, "clientDataJSON")));
        if (!signature.verify(bytes(used, "signature"))) {
            throw new IllegalStateException("invalid signature");
        }
        browser.call("{\"setPresence\": \"denied\"}");
        if (!member(browser.call(get), "error").equals("NotAllowedError")) {
            throw new IllegalStateException("expected NotAllowedError");
        }
        browser.commands.close();
        System.out.println(process.waitFor() == 0 ? "ok" : "the browser failed");
    }
}
