"""A test root certificate and an attestation certificate issued by the root (WebAuthn Level 3, section 8.2.1), in DER,
and the attestation private key in PKCS #8.

Anyone who has this file can create attestations, so a service must not trust the root outside of tests.
bindings/web/key/attestation_certificates.js has the same certificates.
"""

from base64 import b64decode

ROOT_CERTIFICATE = b64decode(
    "MIIB8TCCAZigAwIBAgIBATAKBggqhkjOPQQDAjBeMQswCQYDVQQGEwJVUzEQMA4GA1UECgwHQ29ndHppbDESMBAGA1UECwwJVGVz"
    "dCBSb290MSkwJwYDVQQDDCBoaWRsb2cgdGVzdCByb290LCBmb3IgdGVzdHMgb25seTAgFw0yMDAxMDEwMDAwMDBaGA8yMDk5MTIz"
    "MTAwMDAwMFowXjELMAkGA1UEBhMCVVMxEDAOBgNVBAoMB0NvZ3R6aWwxEjAQBgNVBAsMCVRlc3QgUm9vdDEpMCcGA1UEAwwgaGlk"
    "bG9nIHRlc3Qgcm9vdCwgZm9yIHRlc3RzIG9ubHkwWTATBgcqhkjOPQIBBggqhkjOPQMBBwNCAAQfkwDtUhHfPMni07W2Cuyz+Syj"
    "69+9OJ4UO2SMLHaPZRrpW77gloJH/s02xasN+m/SQauECJZ02X0MSD43EbYMo0UwQzASBgNVHRMBAf8ECDAGAQH/AgEAMA4GA1Ud"
    "DwEB/wQEAwIBBjAdBgNVHQ4EFgQULd+rLj9QoFwwj+H4OERMd9xKuHcwCgYIKoZIzj0EAwIDRwAwRAIgBm+aVfSGfCMd1sKw51G+"
    "YmsXYFvl6/v9SjVnyzoC2kICIA7M3qWGf+g7cobvcmQiwSE5lf6gQTO832kocg80sr+n"
)
# The certificate has no AAGUID extension, so that the key may have any AAGUID.
CERTIFICATE = b64decode(
    "MIIB9jCCAZugAwIBAgIBAjAKBggqhkjOPQQDAjBeMQswCQYDVQQGEwJVUzEQMA4GA1UECgwHQ29ndHppbDESMBAGA1UECwwJVGVz"
    "dCBSb290MSkwJwYDVQQDDCBoaWRsb2cgdGVzdCByb290LCBmb3IgdGVzdHMgb25seTAgFw0yMDAxMDEwMDAwMDBaGA8yMDk5MTIz"
    "MTAwMDAwMFowdTELMAkGA1UEBhMCVVMxEDAOBgNVBAoMB0NvZ3R6aWwxIjAgBgNVBAsMGUF1dGhlbnRpY2F0b3IgQXR0ZXN0YXRp"
    "b24xMDAuBgNVBAMMJ2hpZGxvZyB0ZXN0IGF0dGVzdGF0aW9uLCBmb3IgdGVzdHMgb25seTBZMBMGByqGSM49AgEGCCqGSM49AwEH"
    "A0IABEsimP74mr4JnqE6JLX1IMf5DEmMyYGAXmOnM1BMk/3rbRYyFRunDwmS2m1Uz2Ti6FHWmx0PEgeyHrk/tj+O3UyjMTAvMAwG"
    "A1UdEwEB/wQCMAAwHwYDVR0jBBgwFoAULd+rLj9QoFwwj+H4OERMd9xKuHcwCgYIKoZIzj0EAwIDSQAwRgIhAIhkW9iQijFE4Ih6"
    "9n7Yz5EPP8Pvf+2kAsysXQerDPMeAiEAvzRBagJXViuwhmgmOkKdWIo+qy7R/HFVAAwgEigYAIg="
)
PRIVATE_KEY = b64decode(
    "MIGHAgEAMBMGByqGSM49AgEGCCqGSM49AwEHBG0wawIBAQQglgZQ8CETKczyz7RNWGl044QPyxydmSlEP1IT6L5QVOahRANCAARL"
    "Ipj++Jq+CZ6hOiS19SDH+QxJjMmBgF5jpzNQTJP9620WMhUbpw8JktptVM9k4uhR1psdDxIHsh65P7Y/jt1M"
)
