/* The four functions of <string.h> that the compiler may call. Words are copied as words, to save steps. */
#include <stddef.h>
#include <stdint.h>

/* Else the compiler would make a loop below a call of the function that has the loop. */
#pragma GCC optimize ("no-tree-loop-distribute-patterns")

typedef uint32_t __attribute__((may_alias)) word;

static int is_aligned(const void *a, const void *b)
{
	return (((uintptr_t)a | (uintptr_t)b) & 3) == 0;
}

void *memcpy(void *restrict to, const void *restrict from, size_t n)
{
	unsigned char *d = to;
	const unsigned char *s = from;

	if (is_aligned(d, s)) {
		for (; n >= 4; n -= 4, d += 4, s += 4)
			*(word *)d = *(const word *)s;
	}
	for (; n; n--)
		*d++ = *s++;
	return to;
}

void *memmove(void *to, const void *from, size_t n)
{
	unsigned char *d = to;
	const unsigned char *s = from;

	if (d <= s) {
		for (; n; n--)
			*d++ = *s++;
	} else {
		while (n--)
			d[n] = s[n];
	}
	return to;
}

void *memset(void *to, int value, size_t n)
{
	unsigned char *d = to;
	const uint32_t four = (unsigned char)value * 0x01010101u;

	if (is_aligned(d, d)) {
		for (; n >= 4; n -= 4, d += 4)
			*(word *)d = four;
	}
	for (; n; n--)
		*d++ = (unsigned char)value;
	return to;
}

int memcmp(const void *a, const void *b, size_t n)
{
	const unsigned char *l = a, *r = b;

	for (; n; n--, l++, r++) {
		if (*l != *r)
			return *l - *r;
	}
	return 0;
}
