// A test root certificate, an attestation certificate issued by the root (WebAuthn Level 3, section 8.2.1), and the
// attestation private key, in base64. Anyone who has this file can create attestations, so a production service must
// not trust the root. bindings/python/src/hidlog/attestation_certificates.py has the same certificates.

/** The test root certificate, for the list of trusted roots of a service under test. */
export const ROOT_CERTIFICATE = "MIIB8TCCAZigAwIBAgIBATAKBggqhkjOPQQDAjBeMQswCQYDVQQGEwJVUzEQMA4GA1UECgwHQ29ndHppbDESMBAGA1UECwwJVGVz"
    + "dCBSb290MSkwJwYDVQQDDCBoaWRsb2cgdGVzdCByb290LCBmb3IgdGVzdHMgb25seTAgFw0yMDAxMDEwMDAwMDBaGA8yMDk5MTIz"
    + "MTAwMDAwMFowXjELMAkGA1UEBhMCVVMxEDAOBgNVBAoMB0NvZ3R6aWwxEjAQBgNVBAsMCVRlc3QgUm9vdDEpMCcGA1UEAwwgaGlk"
    + "bG9nIHRlc3Qgcm9vdCwgZm9yIHRlc3RzIG9ubHkwWTATBgcqhkjOPQIBBggqhkjOPQMBBwNCAAQfkwDtUhHfPMni07W2Cuyz+Syj"
    + "69+9OJ4UO2SMLHaPZRrpW77gloJH/s02xasN+m/SQauECJZ02X0MSD43EbYMo0UwQzASBgNVHRMBAf8ECDAGAQH/AgEAMA4GA1Ud"
    + "DwEB/wQEAwIBBjAdBgNVHQ4EFgQULd+rLj9QoFwwj+H4OERMd9xKuHcwCgYIKoZIzj0EAwIDRwAwRAIgBm+aVfSGfCMd1sKw51G+"
    + "YmsXYFvl6/v9SjVnyzoC2kICIA7M3qWGf+g7cobvcmQiwSE5lf6gQTO832kocg80sr+n";

/** The attestation certificate. It has no AAGUID extension, so that the key may have any AAGUID. */
export const CERTIFICATE = "MIIB9jCCAZugAwIBAgIBAjAKBggqhkjOPQQDAjBeMQswCQYDVQQGEwJVUzEQMA4GA1UECgwHQ29ndHppbDESMBAGA1UECwwJVGVz"
    + "dCBSb290MSkwJwYDVQQDDCBoaWRsb2cgdGVzdCByb290LCBmb3IgdGVzdHMgb25seTAgFw0yMDAxMDEwMDAwMDBaGA8yMDk5MTIz"
    + "MTAwMDAwMFowdTELMAkGA1UEBhMCVVMxEDAOBgNVBAoMB0NvZ3R6aWwxIjAgBgNVBAsMGUF1dGhlbnRpY2F0b3IgQXR0ZXN0YXRp"
    + "b24xMDAuBgNVBAMMJ2hpZGxvZyB0ZXN0IGF0dGVzdGF0aW9uLCBmb3IgdGVzdHMgb25seTBZMBMGByqGSM49AgEGCCqGSM49AwEH"
    + "A0IABEsimP74mr4JnqE6JLX1IMf5DEmMyYGAXmOnM1BMk/3rbRYyFRunDwmS2m1Uz2Ti6FHWmx0PEgeyHrk/tj+O3UyjMTAvMAwG"
    + "A1UdEwEB/wQCMAAwHwYDVR0jBBgwFoAULd+rLj9QoFwwj+H4OERMd9xKuHcwCgYIKoZIzj0EAwIDSQAwRgIhAIhkW9iQijFE4Ih6"
    + "9n7Yz5EPP8Pvf+2kAsysXQerDPMeAiEAvzRBagJXViuwhmgmOkKdWIo+qy7R/HFVAAwgEigYAIg=";

/** The private key of the attestation certificate, in PKCS #8. */
export const PRIVATE_KEY = "MIGHAgEAMBMGByqGSM49AgEGCCqGSM49AwEHBG0wawIBAQQglgZQ8CETKczyz7RNWGl044QPyxydmSlEP1IT6L5QVOahRANCAARL"
    + "Ipj++Jq+CZ6hOiS19SDH+QxJjMmBgF5jpzNQTJP9620WMhUbpw8JktptVM9k4uhR1psdDxIHsh65P7Y/jt1M";
