#include "number.h"

#include <stddef.h>
#include <string.h>

#define HEX_DIGITS_MAX 16
#define PGN_LIMIT (UINT32_C(1) << 18)

static bool behind_0x(const char *word)
{
    return word[0] == '0' && (word[1] == 'x' || word[1] == 'X');
}

/* The digit's value, or 16. */
static uint32_t digit_of(char c)
{
    static const char DIGITS[] = "0123456789abcdef";
    char lower = c >= 'A' && c <= 'F' ? (char)(c - 'A' + 'a') : c;
    const char *digit = c == '\0' ? NULL : strchr(DIGITS, lower);
    return digit == NULL ? 16 : (uint32_t)(digit - DIGITS);
}

bool number_read(const char *word, uint32_t max, uint32_t *value)
{
    bool hex = behind_0x(word);
    const char *at = hex ? word + 2 : word;
    uint64_t sum = 0;
    if (*at == '\0' || (!hex && word[0] == '0' && word[1] != '\0'))
        return false;
    for (; *at != '\0'; at++) {
        uint32_t digit = digit_of(*at);
        if (digit >= (hex ? 16 : 10))
            return false;
        sum = sum * (hex ? 16 : 10) + digit;
        if (sum > max)
            return false;
    }
    *value = (uint32_t)sum;
    return true;
}

bool number_read_hex(const char *word, uint64_t *value)
{
    const char *at = behind_0x(word) ? word + 2 : word;
    uint64_t sum = 0;
    size_t length = strlen(at);
    if (length == 0 || length > HEX_DIGITS_MAX)
        return false;
    for (; *at != '\0'; at++) {
        if (digit_of(*at) == 16)
            return false;
        sum = sum << 4 | digit_of(*at);
    }
    *value = sum;
    return true;
}

bool number_is_pgn(uint32_t number)
{
    return number < PGN_LIMIT && ((number >> 8 & 0xFF) >= 240 || (number & 0xFF) == 0);
}
