"""A reference authenticator for the conformance tests: CTAP 2.1 over CTAPHID, written from the standard's
algorithms."""
