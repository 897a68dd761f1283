<?php
// Tests a PHP service with a `hidlog browser` process. Debian has no WebAuthn library for PHP, so the test verifies the
// signature itself. Run it:
//
//     php sign_in.php hidlog browser

const CHALLENGE = 'AAECAwQFBgcICQoLDA0ODw';
const ORIGIN = 'https://example.com';
$command = [...array_slice($argv, 1), '--origin', ORIGIN];
$browser = proc_open($command, [['pipe', 'r'], ['pipe', 'w'], STDERR], $pipes);

/** Sends a command and returns its result. */
function call(string $command, mixed $argument): array
{
    global $pipes;
    fwrite($pipes[0], json_encode([$command => $argument]) . "\n");
    return json_decode(fgets($pipes[1]), true);
}

function bytes(string $base64url): string
{
    return base64_decode(strtr($base64url, '-_', '+/'));
}

/** Verifies the client data's type, challenge and origin. */
function verify_client_data(string $json, string $type): void
{
    $found = json_decode($json, true);
    if ([$found['type'], $found['challenge'], $found['origin']] !== [$type, CHALLENGE, ORIGIN]) {
        exit("unexpected client data: $json\n");
    }
}

$made = call('create', [
    'rp' => ['id' => 'example.com', 'name' => 'Example'], 'challenge' => CHALLENGE,
    'user' => ['id' => 'YW5u', 'name' => 'ann', 'displayName' => 'Ann'],
    'pubKeyCredParams' => [['type' => 'public-key', 'alg' => -7]],
])['value'];
verify_client_data(bytes($made['response']['clientDataJSON']), 'webauthn.create');
$spki = base64_encode(bytes($made['response']['publicKey']));
$key = "-----BEGIN PUBLIC KEY-----\n" . chunk_split($spki, 64) . "-----END PUBLIC KEY-----\n";
$options = [
    'challenge' => CHALLENGE, 'rpId' => 'example.com', 'allowCredentials' => [['type' => 'public-key', 'id' => $made['id']]],
];
$used = call('get', $options)['value']['response'];
verify_client_data(bytes($used['clientDataJSON']), 'webauthn.get');
$signed = bytes($used['authenticatorData']) . hash('sha256', bytes($used['clientDataJSON']), true);
if (openssl_verify($signed, bytes($used['signature']), $key, OPENSSL_ALGO_SHA256) !== 1) {
    exit("invalid signature\n");
}
call('setPresence', 'denied');
if (call('get', $options)['error'] !== 'NotAllowedError') {
    exit("expected NotAllowedError\n");
}
fclose($pipes[0]);
proc_close($browser);
echo "ok\n";
