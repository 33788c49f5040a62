/* Takes the place of the kernel's headers: the types, words and macros that the tables of its tests
 * need beside uapi/linux/bpf.h and uapi/linux/filter.h, which come from its sources. */
#pragma once

#include <errno.h>
#include <limits.h>
#include <stdbool.h>
#include <stddef.h>
#include <stdint.h>
#include <stdio.h>
#include <stdlib.h>
#include <string.h>

#include <linux/types.h>

/* the kernel defines the one of its machine alone */
#undef __BIG_ENDIAN

typedef uint8_t u8;
typedef uint16_t u16;
typedef uint32_t u32;
typedef uint64_t u64;
typedef int8_t s8;
typedef int16_t s16;
typedef int32_t s32;
typedef int64_t s64;

#define S16_MIN SHRT_MIN
#define S16_MAX SHRT_MAX
#define S32_MIN INT_MIN
#define S32_MAX INT_MAX
#define U32_MAX UINT_MAX
#define S64_MAX LLONG_MAX
#define U64_MAX ULLONG_MAX

#define BIT(place) (1UL << (place))
#define max(left, right) ((left) > (right) ? (left) : (right))
#define min(left, right) ((left) < (right) ? (left) : (right))
#define sizeof_field(type, field) sizeof(((type *)0)->field)
#define offsetofend(type, field) (offsetof(type, field) + sizeof_field(type, field))
#define ARRAY_SIZE(array) (sizeof(array) / sizeof(array)[0])
#define BUILD_BUG_ON(wrong) ((void)sizeof(char[1 - 2 * !!(wrong)]))
#define BUG_ON(wrong) do { if (wrong) abort(); } while (0)
#define __stringify_1(...) #__VA_ARGS__
#define __stringify(...) __stringify_1(__VA_ARGS__)
#define __printf(text, first) __attribute__((format(printf, text, first)))
#define __user
#define fallthrough __attribute__((__fallthrough__))

#define GFP_KERNEL 0
#define __GFP_NOWARN 0
#define kmalloc_array(count, size, how) calloc(count, size)
#define kcalloc(count, size, how) calloc(count, size)
#define kmalloc(size, how) malloc(size)
#define kfree(memory) free(memory)

/* constants, of a machine that begins with the lowest byte */
#define cpu_to_be16(number) __builtin_bswap16(number)
#define cpu_to_be32(number) __builtin_bswap32(number)
#define cpu_to_be64(number) __builtin_bswap64(number)
#define cpu_to_le16(number) ((u16)(number))
#define cpu_to_le32(number) ((u32)(number))
#define cpu_to_le64(number) ((u64)(number))

static inline u64 div64_u64(u64 left, u64 right) { return left / right; }
static inline s64 div64_s64(s64 left, s64 right) { return left / right; }
static inline u64 div64_u64_rem(u64 left, u64 right, u64 *rest)
{
	*rest = left % right;
	return left / right;
}

struct rnd_state {
	u32 s1, s2, s3, s4;
};
