/* Bytes as base64 (RFC 4648, with its padding). */
#include "base64.h"

static const char LETTERS[] = "ABCDEFGHIJKLMNOPQRSTUVWXYZabcdefghijklmnopqrstuvwxyz0123456789+/";

void base64_add(text *out, const void *from, size_t length) {
    const uint8_t *bytes = from;
    for (size_t i = 0; i < length; i += 3) {
        size_t count = length - i < 3 ? length - i : 3;
        uint32_t three = (uint32_t)bytes[i] << 16 | (count > 1 ? (uint32_t)bytes[i + 1] << 8 : 0) | (count > 2 ? bytes[i + 2] : 0);
        char four[4] = {LETTERS[three >> 18], LETTERS[three >> 12 & 63], count > 1 ? LETTERS[three >> 6 & 63] : '=', count > 2 ? LETTERS[three & 63] : '='};
        text_add(out, four, sizeof four);
    }
}

/* The number of a letter; 64 where it is none. */
static uint32_t number_of(char letter) {
    if (letter >= 'A' && letter <= 'Z') {
        return (uint32_t)(letter - 'A');
    }
    if (letter >= 'a' && letter <= 'z') {
        return (uint32_t)(letter - 'a') + 26;
    }
    if (letter >= '0' && letter <= '9') {
        return (uint32_t)(letter - '0') + 52;
    }
    return letter == '+' ? 62 : letter == '/' ? 63 : 64;
}

bool base64_decode(char *letters, size_t *length) {
    if (*length % 4 != 0) {
        return false;
    }
    size_t done = 0;
    for (size_t i = 0; i < *length; i += 4) {
        bool is_last = i + 4 == *length;
        int padding = !is_last ? 0 : (letters[i + 3] == '=') + (letters[i + 3] == '=' && letters[i + 2] == '=');
        uint32_t three = 0;
        for (int letter = 0; letter < 4; letter++) {
            uint32_t number = letter < 4 - padding ? number_of(letters[i + (size_t)letter]) : 0;
            if (number == 64) {
                return false;
            }
            three = three << 6 | number;
        }
        for (int byte = 0; byte < 3 - padding; byte++) {
            letters[done++] = (char)(three >> (16 - 8 * byte) & 255);
        }
    }
    *length = done;
    return true;
}
