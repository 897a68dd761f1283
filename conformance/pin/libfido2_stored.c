// A client program that uses libfido2, with a PIN: registers with large blob keys, lists, renames and deletes
// credentials (credential management), and writes a large blob. With an argument, only registers and signs in, with
// built-in user verification. It writes and reads packets as lines, as conformance/clients/libfido2.c does, and prints
// a last line that begins with `ok` or `refused`.
//
//     gcc -o libfido2_stored conformance/pin/libfido2_stored.c -lfido2
#define main main_without_pin
#include "../clients/libfido2.c"
#undef main
#include <fido/credman.h>

static const char pin[] = "1234";
static const unsigned char blob[] = "a large blob of libfido2's";

static void require_equal(const char *what, unsigned long found, unsigned long wanted) {
  if (found != wanted) {
    printf("refused %s: expected %lu, got %lu\n", what, wanted, found);
    exit(1);
  }
}

static fido_cred_t *register_with_large_blob_key(fido_dev_t *device, const char *at, const char *name,
                           const char *used_pin) {
  fido_cred_t *cred = fido_cred_new();
  require_ok("type", fido_cred_set_type(cred, COSE_ES256));
  require_ok("hash", fido_cred_set_clientdata_hash(cred, hash, sizeof hash));
  require_ok("rp", fido_cred_set_rp(cred, at, "Example"));
  require_ok("user", fido_cred_set_user(cred, (const unsigned char *)name,
                                  strlen(name), name, name, NULL));
  require_ok("rk", fido_cred_set_rk(cred, FIDO_OPT_TRUE));
  require_ok("uv",
       fido_cred_set_uv(cred, used_pin == NULL ? FIDO_OPT_TRUE : FIDO_OPT_OMIT));
  require_ok("extensions", fido_cred_set_extensions(cred, FIDO_EXT_LARGEBLOB_KEY));
  require_ok("register", fido_dev_make_cred(device, cred, used_pin));
  require_ok("uv", fido_cred_set_uv(cred, FIDO_OPT_TRUE));
  require_ok("verify the registration", fido_cred_verify_self(cred));
  require_equal("the length of the large blob key", fido_cred_largeblob_key_len(cred), 32);
  return cred;
}

static void test_listed_credentials(fido_dev_t *device, const fido_cred_t *first) {
  fido_credman_metadata_t *metadata = fido_credman_metadata_new();
  fido_credman_rp_t *rps = fido_credman_rp_new();
  fido_credman_rk_t *found = fido_credman_rk_new();
  require_ok("metadata", fido_credman_get_dev_metadata(device, metadata, pin));
  require_equal("credentials", fido_credman_rk_existing(metadata), 3);
  require_ok("the RPs", fido_credman_get_dev_rp(device, rps, pin));
  require_equal("RPs", fido_credman_rp_count(rps), 2);
  require_ok("the credentials", fido_credman_get_dev_rk(device, rp, found, pin));
  require_equal("credentials of the RP", fido_credman_rk_count(found), 2);
  const fido_cred_t *one = fido_credman_rk(found, 0);
  int is_first = memcmp(fido_cred_id_ptr(one), fido_cred_id_ptr(first),
                        fido_cred_id_len(first)) == 0;
  one = fido_credman_rk(found, is_first ? 0 : 1);
  require_equal("memcmp of the credential IDs",
       memcmp(fido_cred_id_ptr(one), fido_cred_id_ptr(first),
              fido_cred_id_len(first)),
       0);
  require_equal("memcmp of the public keys",
       memcmp(fido_cred_pubkey_ptr(one), fido_cred_pubkey_ptr(first),
              fido_cred_pubkey_len(first)),
       0);
  require_equal("memcmp of the large blob keys",
       memcmp(fido_cred_largeblob_key_ptr(one),
              fido_cred_largeblob_key_ptr(first), 32),
       0);
}

static void test_changes(fido_dev_t *device, fido_cred_t *first,
                    const fido_cred_t *second) {
  fido_cred_t *renamed = fido_cred_new();
  fido_credman_rk_t *found = fido_credman_rk_new();
  require_ok("id", fido_cred_set_id(renamed, fido_cred_id_ptr(first),
                              fido_cred_id_len(first)));
  require_ok("user", fido_cred_set_user(renamed, (const unsigned char *)"alice", 5,
                                  "renamed", "Renamed", NULL));
  require_ok("rename", fido_credman_set_dev_rk(device, renamed, pin));
  require_ok("delete", fido_credman_del_dev_rk(device, fido_cred_id_ptr(second),
                                         fido_cred_id_len(second), pin));
  require_ok("the credentials", fido_credman_get_dev_rk(device, rp, found, pin));
  require_equal("remaining credentials of the RP", fido_credman_rk_count(found), 1);
  require_equal("strcmp of the user names",
       (unsigned long)strcmp(fido_cred_user_name(fido_credman_rk(found, 0)),
                             "renamed"),
       0);
}

static void test_large_blobs(fido_dev_t *device, const fido_cred_t *first) {
  unsigned char *found = NULL;
  size_t length = 0;
  const unsigned char *key = fido_cred_largeblob_key_ptr(first);
  require_ok("write a blob",
       fido_dev_largeblob_set(device, key, 32, blob, sizeof blob, pin));
  require_ok("read a blob", fido_dev_largeblob_get(device, key, 32, &found, &length));
  require_equal("the blob's length", length, sizeof blob);
  require_equal("memcmp of the blobs", (unsigned long)memcmp(found, blob, sizeof blob), 0);
}

static void test_user_verification(fido_dev_t *device) {
  int left;
  require_ok("retries", fido_dev_get_uv_retry_count(device, &left));
  fido_cred_t *cred = register_with_large_blob_key(device, rp, "alice", NULL);
  fido_assert_t *found = fido_assert_new();
  es256_pk_t *key = es256_pk_new();
  require_ok("key", es256_pk_from_ptr(key, fido_cred_pubkey_ptr(cred),
                                fido_cred_pubkey_len(cred)));
  require_ok("hash", fido_assert_set_clientdata_hash(found, hash, sizeof hash));
  require_ok("rp", fido_assert_set_rp(found, rp));
  require_ok("uv", fido_assert_set_uv(found, FIDO_OPT_TRUE));
  require_ok("sign in", fido_dev_get_assert(device, found, NULL));
  require_ok("verify the sign-in", fido_assert_verify(found, 0, COSE_ES256, key));
}

int main(int count, char **words) {
  (void)words;
  fido_init(0);
  fido_dev_t *device = open_device();
  if (count > 1) {
    test_user_verification(device);
  } else {
    require_ok("set a PIN", fido_dev_set_pin(device, pin, NULL));
    fido_cred_t *first = register_with_large_blob_key(device, rp, "alice", pin),
                *second = register_with_large_blob_key(device, rp, "bob", pin);
    register_with_large_blob_key(device, "example.org", "alice", pin);
    test_listed_credentials(device, first);
    test_changes(device, first, second);
    test_large_blobs(device, first);
  }
  printf("ok\n");
  return 0;
}
