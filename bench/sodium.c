/* libsodium beside the proved ciphers: sodium PRIMITIVE SIZE REPETITIONS, as cipher_bench has it. At scrypt
   SIZE is the cost, and each salt is of the key before. Where libsodium has no such primitive, or the machine
   can't run it, the status is 3. */
#include <sodium.h>
#include <stdlib.h>
#include <string.h>

enum { WRONG_WORDS = 1, NO_MEMORY = 2, NOT_THERE = 3 };

static const unsigned char KEY[32] = {7, 7, 7, 7, 7, 7, 7, 7, 7, 7, 7, 7, 7, 7, 7, 7,
                                      7, 7, 7, 7, 7, 7, 7, 7, 7, 7, 7, 7, 7, 7, 7, 7};

static int scrypt(unsigned long cost, unsigned long repetitions) {
  static const unsigned char password[] = "long pass";
  unsigned char salt[16], key[64];
  memset(salt, 7, sizeof salt);
  for (unsigned long i = 0; i < repetitions; i++) {
    if (crypto_pwhash_scryptsalsa208sha256_ll(password, sizeof password - 1, salt, sizeof salt, 1ULL << cost, 8, 1,
                                              key, sizeof key) != 0)
      return NO_MEMORY;
    memcpy(salt, key, sizeof salt);
  }
  return 0;
}

/* One turn of a primitive over the buffer, which has room for a tag. */
static int run(const char *name, unsigned char *buf, unsigned long size) {
  unsigned char digest[32];
  if (strcmp(name, "sha_256") == 0) {
    crypto_hash_sha256(digest, buf, size);
    memcpy(buf, digest, size < sizeof digest ? size : sizeof digest);
  } else if (strcmp(name, "hmac_sha_256") == 0) {
    crypto_auth_hmacsha256(digest, buf, size, KEY);
    memcpy(buf, digest, size < sizeof digest ? size : sizeof digest);
  } else if (strcmp(name, "aes_256_gcm") == 0 && crypto_aead_aes256gcm_is_available()) {
    crypto_aead_aes256gcm_encrypt_detached(buf, buf + size, NULL, buf, size, NULL, 0, NULL, KEY, KEY);
  } else {
    return NOT_THERE;
  }
  return 0;
}

int main(int argc, char **argv) {
  if (argc != 4 || sodium_init() < 0) return WRONG_WORDS;
  unsigned long size = strtoul(argv[2], NULL, 10), repetitions = strtoul(argv[3], NULL, 10);
  if (strcmp(argv[1], "scrypt") == 0) return scrypt(size, repetitions);
  unsigned char *buf = calloc(size + 16, 1);
  if (buf == NULL) return NO_MEMORY;
  int status = 0;
  for (unsigned long i = 0; status == 0 && i < repetitions; i++) status = run(argv[1], buf, size);
  free(buf);
  return status;
}
