/* What a program of the boards needs of C's library, for a board whose compiler is the toolchain's and has none. */
#include <stdint.h>
#include <string.h>

void *memcpy(void *to, const void *from, size_t n) {
    for (size_t k = 0; k < n; k++) ((volatile uint8_t *)to)[k] = ((const uint8_t *)from)[k]; /* volatile: else the loop is taken for a call of this function */
    return to;
}
void *memset(void *to, int c, size_t n) {
    for (size_t k = 0; k < n; k++) ((volatile uint8_t *)to)[k] = (uint8_t)c;
    return to;
}
int memcmp(const void *a, const void *b, size_t n) {
    for (size_t k = 0; k < n; k++)
        if (((const uint8_t *)a)[k] != ((const uint8_t *)b)[k]) return ((const uint8_t *)a)[k] - ((const uint8_t *)b)[k];
    return 0;
}
size_t strlen(const char *s) {
    size_t n = 0;
    while (s[n]) n++;
    return n;
}
int strcmp(const char *a, const char *b) {
    for (; *a && *a == *b; a++) b++;
    return (uint8_t)*a - (uint8_t)*b;
}
int strncmp(const char *a, const char *b, size_t n) {
    for (; n && *a && *a == *b; n--, a++) b++;
    return n ? (uint8_t)*a - (uint8_t)*b : 0;
}
char *strchr(const char *s, int c) {
    for (; *s != (char)c; s++)
        if (!*s) return NULL;
    return (char *)(uintptr_t)s;
}
