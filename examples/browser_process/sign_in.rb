#!/usr/bin/env ruby
# Tests a Ruby service with a `hidlog browser` process. Debian's webauthn 2.5 rejects P-256 keys with OpenSSL 3, so the
# test verifies the signature itself. Run it:
#
#     sign_in.rb hidlog browser
require "json"
require "openssl"

CHALLENGE = "AAECAwQFBgcICQoLDA0ODw"
ORIGIN = "https://example.com"
BROWSER = IO.popen([*ARGV, "--origin", ORIGIN], "r+")

# Sends a command and returns its result.
def call(command, argument)
  BROWSER.puts JSON.generate(command => argument)
  JSON.parse(BROWSER.gets)
end

def bytes(base64url)
  base64url.tr("-_", "+/").unpack1("m")
end

# Verifies the client data's type, challenge and origin.
def verify_client_data(json, type)
  found = JSON.parse(json).values_at("type", "challenge", "origin")
  abort "unexpected client data: #{found}" unless found == [type, CHALLENGE, ORIGIN]
end

made = call("create", {
  rp: { id: "example.com", name: "Example" }, user: { id: "YW5u", name: "ann", displayName: "Ann" },
  challenge: CHALLENGE, pubKeyCredParams: [{ type: "public-key", alg: -7 }]
})["value"]
verify_client_data(bytes(made["response"]["clientDataJSON"]), "webauthn.create")
key = OpenSSL::PKey.read(bytes(made["response"]["publicKey"]))

options = { challenge: CHALLENGE, rpId: "example.com", allowCredentials: [{ type: "public-key", id: made["id"] }] }
used = call("get", options)["value"]["response"].transform_values { |text| bytes(text) if text }
verify_client_data(used["clientDataJSON"], "webauthn.get")
signed = used["authenticatorData"] + OpenSSL::Digest.digest("SHA256", used["clientDataJSON"])
abort "invalid signature" unless key.verify("SHA256", used["signature"], signed)

call("setPresence", "denied")
abort "expected NotAllowedError" unless call("get", options)["error"] == "NotAllowedError"
BROWSER.close
puts "ok"
