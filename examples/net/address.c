#include "address.h"
#include <stdio.h>
#include <stdlib.h>
#include <string.h>

static bool is_port(const char *digits, size_t length) {
    if (length < 1 || length > 5 || digits[0] == '0') return false;
    for (size_t i = 0; i < length; i++) {
        if (digits[i] < '0' || digits[i] > '9') return false;
    }
    return atoi(digits) <= 65535;
}

// How long the host is, brackets included, and 0 where there is none.
static size_t host_length(const char *text) {
    if (text[0] == '[') {
        size_t inner = strspn(text + 1, "0123456789abcdef:.");
        bool well = inner >= 2 && inner <= 45 && memchr(text + 1, ':', inner) && text[1 + inner] == ']';
        return well ? inner + 2 : 0;
    }
    size_t length = strspn(text, "abcdefghijklmnopqrstuvwxyz0123456789_-.");
    return length <= 255 ? length : 0;
}

bool address_of(char out[ADDRESS_ROOM], const char *bytes, size_t length) {
    char text[ADDRESS_ROOM];
    if (length == 0 || length >= sizeof text - 8 || memchr(bytes, 0, length)) return false;
    for (size_t i = 0; i < length; i++) text[i] = (bytes[i] >= 'A' && bytes[i] <= 'Z') ? bytes[i] + 32 : bytes[i];
    text[length] = 0;
    size_t host = host_length(text);
    if (host == 0) return false;
    if (text[host] == 0) {
        memcpy(out, text, host);
        memcpy(out + host, ":27017", 7);
        return true;
    }
    if (text[host] != ':' || !is_port(text + host + 1, length - host - 1)) return false;
    memcpy(out, text, length + 1);
    return true;
}

void address_cut(const char *address, char host[ADDRESS_ROOM], char port[8]) {
    const char *colon = strrchr(address, ':');
    bool brackets = address[0] == '[';
    size_t length = (size_t)(colon - address) - (brackets ? 2 : 0);
    memcpy(host, address + (brackets ? 1 : 0), length);
    host[length] = 0;
    snprintf(port, 8, "%s", colon + 1);
}
