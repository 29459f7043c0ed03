/* The C engines take what the library's searches take, and c_first what its first hit takes. */
#ifndef ENGINES_H
#define ENGINES_H
#include <stddef.h>
#include <stdint.h>
#define ENGINE(name)                                                                                            \
  int64_t name(uint32_t k, const uint32_t *p, size_t m, const uint32_t *t, size_t n, uint32_t *hits, size_t cap, \
               uint64_t *work, size_t nwork)
ENGINE(c_brute);
ENGINE(c_kmp);
ENGINE(c_bm);
ENGINE(c_sunday);
ENGINE(c_shiftand);
ENGINE(c_hybrid);
ENGINE(plain_brute);
int64_t c_first(uint32_t k, const uint32_t *p, size_t m, const uint32_t *t, size_t n, uint64_t *found,
                size_t nfound);
#endif
