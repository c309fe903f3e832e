#ifndef LUPINENBLATT_BENCH_PLAIN_H
#define LUPINENBLATT_BENCH_PLAIN_H

#include <stddef.h>
#include <stdint.h>

#ifdef __cplusplus
extern "C"
#endif
uint64_t plain_pass(const uint8_t *bytes, size_t length);

#endif
