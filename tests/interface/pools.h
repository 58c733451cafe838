/* Pools for the tests: the worked examples P and Q, one whose texts, labels and IDs all differ, the same with faults, and a record of
 * each kind whose bytes all differ. */
#ifndef POOLS_H
#define POOLS_H

#include <stdint.h>

/* P is a device and a device element. Q is P, then a device element with number 1, and its process data: DDI 141, default
 * set, sent by time and on change. */
enum { P = 44, ELEMENT_END = 59, Q = 71 };

static const uint8_t q[Q] = {
    'D', 'V', 'C', 0, 0, 0, 0, 0, 0, 0, 0, 0, 0, 0, 0, 0,
    1, 1, 1, 1, 1, 1, 1, 0x65, 0x6E, 0, 0, 0, 0, 0xFF, 0,
    'D', 'E', 'T', 1, 0, 1, 0, 0, 0, 0, 0, 0, 0,
    'D', 'E', 'T', 2, 0, 4, 0, 1, 0, 1, 0, 1, 0, 3, 0,
    'D', 'P', 'D', 3, 0, 0x8D, 0, 0x01, 0x09, 0, 0xFF, 0xFF
};

/* The records are not in the order of their kinds' numbers. */
enum { NAMED = 105 };

static const uint8_t named[NAMED] = {
    'D', 'V', 'P', 9, 2, 0, 0, 0, 0, 0, 0, 0x80, 0x3F, 0, 2, 'k', 'g',
    'D', 'P', 'T', 7, 1, 0x86, 0, 1, 0, 0, 0, 3, 'o', 'u', 't', 9, 2,
    'D', 'V', 'C', 0, 0, 5, 'D', 'r', 'i', 'l', 'l', 0, 0, 0, 0, 0, 0, 0, 0, 0, 0,
    21, 22, 23, 24, 25, 26, 27, 31, 32, 33, 34, 35, 36, 0xFF, 3, 41, 42, 43,
    'D', 'E', 'T', 3, 4, 1, 4, 'm', 'a', 'i', 'n', 5, 0, 0, 0, 1, 0, 7, 1,
    'D', 'E', 'T', 6, 5, 2, 0, 8, 0, 3, 4, 0, 0
};

/* `named` without its device, with a text that is not UTF-8 and with an element of type 0. */
enum { FAULTY = 66 };

static const uint8_t faulty[FAULTY] = {
    'D', 'V', 'P', 9, 2, 0, 0, 0, 0, 0, 0, 0x80, 0x3F, 0, 2, 'k', 'g',
    'D', 'P', 'T', 7, 1, 0x86, 0, 1, 0, 0, 0, 3, 'o', 0xFF, 't', 9, 2,
    'D', 'E', 'T', 3, 4, 1, 4, 'm', 'a', 'i', 'n', 5, 0, 0, 0, 1, 0, 7, 1,
    'D', 'E', 'T', 6, 5, 0, 0, 8, 0, 3, 4, 0, 0
};

/* A record of each kind, after two other bytes. No byte of a number occurs twice. */
enum { A_DEVICE = 2, AN_ELEMENT = 43, SOME_DATA = 62, A_PROPERTY = 75, A_PRESENTATION = 89, DIFFERENT = 107 };

static const uint8_t different[DIFFERENT] = {
    '?', '?',
    'D', 'V', 'C', 0x01, 0x02, 3, 'a', 'b', 'c', 2, 'd', 'e', 0x11, 0x12, 0x13, 0x14, 0x15, 0x16, 0x17, 0x18, 1, 'f',
    'S', 'T', 'R', 'U', 'C', 'T', 'U', 'L', 'O', 'C', 'A', 'L', 'I', 'Z', 4, 'g', 'h', 'i', 'j',
    'D', 'E', 'T', 0x03, 0x04, 0x05, 2, 'k', 'l', 0x06, 0x07, 0x08, 0x09, 2, 0, 0x0A, 0x0B, 0x0C, 0x0D,
    'D', 'P', 'D', 0x0E, 0x0F, 0x10, 0x19, 0x1A, 0x1B, 1, 'm', 0x1C, 0x1D,
    'D', 'P', 'T', 0x1E, 0x1F, 0x20, 0x21, 0x22, 0x23, 0x24, 0xFD, 0, 0x25, 0x26,
    'D', 'V', 'P', 0x27, 0x28, 0x29, 0x2A, 0x2B, 0xF4, 0x2C, 0x2D, 0x2E, 0x2F, 0x30, 3, 'n', 'o', 'p'
};

#endif
