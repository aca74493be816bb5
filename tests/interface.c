/* Calls the library by its header, on 01's surveyed examples, timed warm-ups, a locomotive and slot files, as another tool would.

       interface FILE LISTING

   FILE is an accepted slot file and LISTING what the program prints of it. */
#include "tezhebul.h"

#include <stdio.h>
#include <stdlib.h>
#include <string.h>

enum { MOST = 65536 };

static void expect(int holds, const char *what)
{
    if (!holds) {
        fprintf(stderr, "not as it should be: %s\n", what);
        exit(1);
    }
}

/* An emission's code, and its two figures, rounded as the header says. */
static void expect_emission(const uint64_t *numbers, uint64_t code, uint64_t annual, uint64_t peak, const char *what)
{
    uint64_t year = numbers[1] + (numbers[2] >= TEZHEBUL_ANNUAL_DENOMINATOR / 2);
    uint64_t rate = numbers[3] + (numbers[4] >= TEZHEBUL_PEAK_DENOMINATOR / 2);
    expect(numbers[0] == code && year == annual && rate == peak, what);
    expect(numbers[2] < TEZHEBUL_ANNUAL_DENOMINATOR && numbers[4] < TEZHEBUL_PEAK_DENOMINATOR, what);
}

/* 01's examples E, G and H. */
static void stores(void)
{
    uint64_t out[TEZHEBUL_STORE_NUMBERS];
    expect(tezhebul_handling(3, 1, 5, 20, 50, 10, 1, 1200, 4, out, TEZHEBUL_STORE_NUMBERS) && out[0] == 0, "E");
    expect_emission(out + 2, 2909, 3894065, 1764000, "E, figures");
    expect(tezhebul_standing(2, 1, 1, 30, 5, 1, 2, 100, 0, out, TEZHEBUL_STORE_NUMBERS) && out[0] == 0, "G");
    expect_emission(out + 2, 2908, 5165597, 2340000, "G, figures");
    expect(tezhebul_aspiration(1, 1, 500, 2000, 9500, 1000, out, TEZHEBUL_STORE_NUMBERS) && out[0] == 0, "H");
    expect_emission(out + 2, 152, 180000, 500000, "H, figures");
    expect(tezhebul_handling(3, 1, 5, 141, 50, 10, 1, 1200, 4, out, TEZHEBUL_STORE_NUMBERS) && out[0] == 9 && out[2] == 0, "wind 14.1");
    expect(!tezhebul_standing(2, 1, 1, 30, 5, 1, 2, 100, 0, out, TEZHEBUL_STORE_NUMBERS - 1) && out[0] == 9, "no room");
}

/* 01's examples B, C and D, and the same with their warm-up timed. Out is 4 g a minute x minutes x control + 10 g/km x 0.2 km + 2 g a minute x 1 x control, in
   the same without warm-up; 5 cars leave on 240 days, and 4 in the hour. B timed at 7.0 minutes: out 28 + 2 + 2 = 32, in 4, 36 x 1,200 = 43,200 g a year and
   32 x 4 / 3,600 = 0.0355556 g/s, and D the same; at 25.0 minutes: out 104, 129,600 g and 0.1155556 g/s. C timed at 7.0: out 22.4 + 2 + 1.6 = 26, in 3.6,
   35,520 g and 0.0288889 g/s. */
static void group(uint8_t flags, uint32_t timed, uint64_t annual, uint64_t peak, const char *what)
{
    uint32_t distances[TEZHEBUL_DISTANCES] = {100, 300, 100, 300};
    uint8_t days[TEZHEBUL_MONTHS];
    int16_t temperatures[TEZHEBUL_MONTHS];
    uint32_t coefficients[TEZHEBUL_COEFFICIENTS] = {40000, 40000, 40000, 100000, 100000, 100000, 20000};
    uint64_t out[TEZHEBUL_GROUP_NUMBERS];
    for (int month = 0; month < TEZHEBUL_MONTHS; month++) {
        days[month] = 20;
        temperatures[month] = 100;
    }
    expect(tezhebul_group(1, 1, flags, 10, 4, 50, 100, 100, 10, timed, distances, TEZHEBUL_DISTANCES, days, TEZHEBUL_MONTHS, temperatures, TEZHEBUL_MONTHS,
                          coefficients, TEZHEBUL_COEFFICIENTS, out, TEZHEBUL_GROUP_NUMBERS) && out[0] == 0, what);
    expect_emission(out + 2, 337, annual, peak, what);
    expect_emission(out + 2 + 5 * TEZHEBUL_EMISSION_NUMBERS, 184, 0, 0, what);
    expect(!tezhebul_group(1, 1, flags, 10, 4, 50, 100, 100, 10, timed, distances, TEZHEBUL_DISTANCES, days, TEZHEBUL_MONTHS - 1, temperatures, TEZHEBUL_MONTHS,
                           coefficients, TEZHEBUL_COEFFICIENTS, out, TEZHEBUL_GROUP_NUMBERS), "eleven months");
    expect(tezhebul_group(1, 1, flags, 10, 4, 50, 100, 100, 10, 251, distances, TEZHEBUL_DISTANCES, days, TEZHEBUL_MONTHS, temperatures, TEZHEBUL_MONTHS,
                          coefficients, TEZHEBUL_COEFFICIENTS, out, TEZHEBUL_GROUP_NUMBERS) && out[0] == 9 && out[1] == 0 && out[2] == 0, "timed at 25.1");
}

/* TGM6 with the shares of 000's Table 22, 1,000 hours, not old, in zone 2: 0.94743, 6.13464 and 0.04921 kg/h, at full power 4.13, 15.21 and 0.38. */
static void locomotive(void)
{
    uint64_t out[TEZHEBUL_LOCOMOTIVE_NUMBERS];
    expect(tezhebul_locomotive(1, 687, 201, 89, 15, 8, 1000, 0, 2, out, TEZHEBUL_LOCOMOTIVE_NUMBERS) && out[0] == 0 && out[1] == 0, "a locomotive");
    expect_emission(out + 2, 337, 663201, 11472222, "a locomotive's CO");
    expect_emission(out + 2 + TEZHEBUL_EMISSION_NUMBERS, 301, 4294248, 42250000, "a locomotive's NO2");
    expect_emission(out + 2 + 2 * TEZHEBUL_EMISSION_NUMBERS, 328, 34447, 1055556, "a locomotive's soot");
    expect(tezhebul_locomotive(1, 687, 201, 89, 15, 8, 1000, 1, 3, out, TEZHEBUL_LOCOMOTIVE_NUMBERS) && out[0] == 0, "an old one in the north");
    expect_emission(out + 2, 337, 636673, 11472222, "an old one in the north, CO");
    expect(tezhebul_locomotive(1, 687, 201, 89, 15, 7, 1000, 0, 4, out, TEZHEBUL_LOCOMOTIVE_NUMBERS) && out[0] == 9 && out[2] == 0, "zone 4");
    expect(tezhebul_locomotive(1, 687, 201, 89, 15, 7, 1000, 0, 2, out, TEZHEBUL_LOCOMOTIVE_NUMBERS) && out[0] == 14 && out[2] == 0, "shares of 999");
    expect(!tezhebul_locomotive(1, 687, 201, 89, 15, 8, 1000, 0, 2, out, TEZHEBUL_LOCOMOTIVE_NUMBERS - 1) && out[0] == 14, "no room for a locomotive");
}

/* The same locomotive in slot 1 of a file of two slots, and with a share that is one less. */
static void locomotive_file(void)
{
    static const char last[] = "\nsources 0 0 1\n";
    uint8_t data[128] = {1, 0, 2, 0}, buffer[TEZHEBUL_LISTING_MOST];
    const uint8_t slot[18] = {0, 0, 6, 1, 0xaf, 2, 201, 0, 89, 0, 15, 0, 8, 0, 0xe8, 3, 0, 2};
    uint64_t out[TEZHEBUL_NUMBERS + 1];
    data[32] = 1;
    memcpy(data + 64, slot, sizeof slot);
    out[TEZHEBUL_NUMBERS - 1] = out[TEZHEBUL_NUMBERS] = 7;
    expect(tezhebul_answer(data, sizeof data, out, TEZHEBUL_NUMBERS + 1) && out[0] == 0 && out[1] == 0, "a file with a locomotive");
    expect(out[TEZHEBUL_NUMBERS - 1] == 0 && out[TEZHEBUL_NUMBERS] == 7, "as many numbers as the header says");
    expect(out[2] == 0 && out[3] == 0 && out[4] == 1, "three counts");
    expect(out[5 + 5] == 663201 && out[5 + TEZHEBUL_CODES + 5] == 11472222 && out[5] == 0, "the figures behind them");
    size_t length = tezhebul_list(data, sizeof data, buffer, sizeof buffer, out, TEZHEBUL_NUMBERS);
    size_t end = sizeof last - 1;
    expect(length > end && memcmp(buffer + length - end, last, end) == 0, "three counts in the listing");
    data[64 + 12] = 7;
    expect(tezhebul_check(data, sizeof data) == 14 * 65536 + 1, "a file with shares of 999");
}

static size_t whole(const char *name, uint8_t *room)
{
    FILE *file = fopen(name, "rb");
    expect(file != NULL, name);
    size_t length = fread(room, 1, MOST, file);
    fclose(file);
    return length;
}

static void file(const char *slots, const char *listing)
{
    static uint8_t data[MOST], expected[MOST], buffer[TEZHEBUL_LISTING_MOST];
    uint64_t out[TEZHEBUL_NUMBERS], listed[TEZHEBUL_NUMBERS];
    size_t length = whole(slots, data);
    size_t most = whole(listing, expected);
    expect(tezhebul_check(data, length) == 0, "an accepted file");
    expect(tezhebul_check(data, length - 64) == 3 * 65536, "a slot lost");
    expect(tezhebul_answer(data, length, out, TEZHEBUL_NUMBERS) && out[0] == 0, "its answer");
    expect(!tezhebul_answer(data, length, out, TEZHEBUL_NUMBERS - 1), "no room for its numbers");
    expect(tezhebul_list(data, length, buffer, most - 1, listed, TEZHEBUL_NUMBERS) == 0 && listed[0] == 13, "a short buffer");
    expect(tezhebul_list(data, length, buffer, sizeof buffer, listed, TEZHEBUL_NUMBERS) == most, "its listing");
    expect(memcmp(buffer, expected, most) == 0 && memcmp(out, listed, sizeof out) == 0, "its listing's bytes and numbers");
}

int main(int count, char **words)
{
    expect(count == 3, "interface FILE LISTING");
    stores();
    group(0, 0, 24000, 177778, "B");
    group(TEZHEBUL_CONTROLLED, 0, 20160, 146667, "C");
    group(TEZHEBUL_HEATED, 0, 16800, 111111, "D");
    group(0, 70, 43200, 355556, "B timed");
    group(0, 250, 129600, 1155556, "B timed at most");
    group(TEZHEBUL_CONTROLLED, 70, 35520, 288889, "C timed");
    group(TEZHEBUL_HEATED, 70, 43200, 355556, "D timed");
    locomotive();
    locomotive_file();
    file(words[1], words[2]);
    puts("the library by its header: as it should be");
}
