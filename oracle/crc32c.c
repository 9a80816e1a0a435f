/* crc32c FILE BS RUNS: hashes each block of a file with CRC-32C by eight tables, as a journal's checksums do, and prints the
   least seconds of RUNS, by the clock and of the processor, and the sum of all. The file is read before. */
#include <stdint.h>
#include <stdio.h>
#include <stdlib.h>
#include <string.h>
#include <time.h>

static uint32_t table[8][256];

static void fill(void) {
    for (uint32_t byte = 0; byte < 256; byte++) {
        uint32_t rest = byte;
        for (int bit = 0; bit < 8; bit++)
            rest = rest >> 1 ^ (rest & 1 ? 0x82F63B78 : 0);
        table[0][byte] = rest;
    }
    for (int k = 1; k < 8; k++)
        for (int byte = 0; byte < 256; byte++)
            table[k][byte] = table[k - 1][byte] >> 8 ^ table[0][table[k - 1][byte] & 255];
}

static uint32_t crc32c(uint32_t begun, const unsigned char *at, size_t length) {
    for (; length >= 8; length -= 8, at += 8) {
        uint32_t low, high;
        memcpy(&low, at, 4);
        memcpy(&high, at + 4, 4);
        low ^= begun;
        begun = table[7][low & 255] ^ table[6][low >> 8 & 255] ^ table[5][low >> 16 & 255] ^ table[4][low >> 24]
            ^ table[3][high & 255] ^ table[2][high >> 8 & 255] ^ table[1][high >> 16 & 255] ^ table[0][high >> 24];
    }
    for (; length; length--)
        begun = table[0][(begun ^ *at++) & 255] ^ begun >> 8;
    return begun;
}

static double now(clockid_t clock) {
    struct timespec t;
    clock_gettime(clock, &t);
    return t.tv_sec + t.tv_nsec / 1e9;
}

int main(int argc, char **argv) {
    if (argc != 4)
        return 2;
    FILE *file = fopen(argv[1], "rb");
    if (!file || fseek(file, 0, SEEK_END))
        return 2;
    size_t length = ftell(file), size = atoi(argv[2]);
    unsigned char *bytes = malloc(length);
    rewind(file);
    if (!bytes || !size || fread(bytes, 1, length, file) != length)
        return 2;
    fill();
    double clock = 1e9, processor = 1e9;
    uint32_t sum = 0;
    for (int run = atoi(argv[3]); run > 0; run--) {
        double from = now(CLOCK_MONOTONIC), used = now(CLOCK_PROCESS_CPUTIME_ID);
        for (size_t at = 0; at + size <= length; at += size)
            sum ^= crc32c(0xFFFFFFFF, bytes + at, size);
        double took = now(CLOCK_MONOTONIC) - from, cpu = now(CLOCK_PROCESS_CPUTIME_ID) - used;
        clock = took < clock ? took : clock;
        processor = cpu < processor ? cpu : processor;
    }
    printf("%.4f %.4f %08x\n", clock, processor, sum);
    return 0;
}
