/* Tezhebul for tools in other languages: the check, the answer and the listing of an inventory slot file, and the rules of each kind of source.
   Each function is proved to do what a definition of the papers says (crates/tezhebul). A slice is a pointer and a length. A pointer is not null, also where the
   length is 0; the memory behind it is the caller's for the length of the call; and memory that is written (`buffer`, `out`) overlaps no other slice of the call.
   What the refusal numbers and the codes of fields mean is in README.md and docs/FORMAT.md. Build the archive with `bash tests/build.sh tezhebul`. */
#ifndef TEZHEBUL_H
#define TEZHEBUL_H

#include <stdbool.h>
#include <stddef.h>
#include <stdint.h>

#ifdef __cplusplus
extern "C" {
#endif

/* Files.

   Numbers of an answer: number and slot (0 and 0 of an accepted file), groups, store records, locomotives, ten annual figures in millionths of a tonne, ten peak
   figures in ten-millionths of a gram per second, by the codes 0152 0184 0301 0328 0330 0337 2704 2754 2908 2909. */
#define TEZHEBUL_CODES 10
#define TEZHEBUL_NUMBERS (5 + 2 * TEZHEBUL_CODES)

/* No listing is longer. */
#define TEZHEBUL_LISTING_MOST 532

/* 0 of an accepted file, and else 65,536 times the refusal's number, plus its slot. */
uint32_t tezhebul_check(const uint8_t *file, size_t file_length);

/* Writes the answer's numbers to the start of `out`; false, and nothing written, where it has room for fewer than TEZHEBUL_NUMBERS. */
bool tezhebul_answer(const uint8_t *file, size_t file_length, uint64_t *out, size_t out_length);

/* Writes the listing to the start of the buffer and returns its length; a refusal, 13 included, returns 0 and changes no byte of it. Where `out` has
   room for TEZHEBUL_NUMBERS, its first are then those of the answer, or of refusal 13; a shorter `out` stays as it is. */
size_t tezhebul_list(const uint8_t *file, size_t file_length, uint8_t *buffer, size_t buffer_length, uint64_t *out, size_t out_length);

/* Rules.

   What one source gives, exactly and not rounded. Each writes its numbers to the start of `out`: the number (0, or 9 where a field is out of range, or 11 or 14)
   and a slot, always 0; then each emission. A refusal has zeros for all else. An emission is five numbers:

     the substance code,
     the year's mass: whole millionths of a tonne, and a part of one over TEZHEBUL_ANNUAL_DENOMINATOR,
     the peak rate: whole ten-millionths of a gram per second, and a part of one over TEZHEBUL_PEAK_DENOMINATOR.

   To add sources, add wholes and parts, and carry one whole for each denominator in the parts. The figure of a sum, rounded once after all sources are added, is
   its whole, and one more where its part is half of the denominator or more.

   C narrows a wider integer to the type of a parameter without a warning by default: a caller that holds one tests it first. */
#define TEZHEBUL_EMISSION_NUMBERS 5
#define TEZHEBUL_STORE_NUMBERS (2 + TEZHEBUL_EMISSION_NUMBERS)
#define TEZHEBUL_EMISSIONS 6
#define TEZHEBUL_GROUP_NUMBERS (2 + TEZHEBUL_EMISSIONS * TEZHEBUL_EMISSION_NUMBERS)
#define TEZHEBUL_LOCOMOTIVE_EMISSIONS 3
#define TEZHEBUL_LOCOMOTIVE_NUMBERS (2 + TEZHEBUL_LOCOMOTIVE_EMISSIONS * TEZHEBUL_EMISSION_NUMBERS)
#define TEZHEBUL_ANNUAL_DENOMINATOR UINT64_C(20000000000000)
#define TEZHEBUL_PEAK_DENOMINATOR UINT64_C(72000000)

/* Store records. False, and nothing written, where `out` has room for fewer than TEZHEBUL_STORE_NUMBERS.

     dust      1 for 0152, 2 for 2908, 3 for 2909
     store     the store's number, 1 or more
     material  1 limestone, 2 lump lime, 3 ground lime, 4 sodium chloride, 5 coal, 6 slag, 7 cement, 8 sand, 9 sandstone
     wind      tenths of a metre per second, 0 to 140
     moisture  tenths of a percent, 0 to 1,000
     grain     millimetres, any
     openness  1 on four sides, 2 on three, 3 on two in part, 4 on two wholly, 5 on one, 6 loading sleeve, 7 closed
     amount    handled: kilograms in 20 minutes; standing: square metres; 0 to 1,000,000
     drop      the class of the drop, 1 to 8: 0.5, 1, 1.5, 2, 4, 6, 8, 10 metres
     k6        hundredths, 100 to 200, or 0 where it is missing, which counts as 130 */
bool tezhebul_handling(uint8_t dust, uint16_t store, uint8_t material, uint16_t wind, uint16_t moisture, uint16_t grain, uint8_t openness, uint32_t amount,
                       uint8_t drop, uint64_t *out, size_t out_length);

bool tezhebul_standing(uint8_t dust, uint16_t store, uint8_t material, uint16_t wind, uint16_t moisture, uint16_t grain, uint8_t openness, uint32_t amount,
                       uint16_t k6, uint64_t *out, size_t out_length);

/*   concentration  of dust, milligrams per cubic metre, 0 to 1,000,000
     flow           of gas, litres per second, 0 to 1,000,000
     capture        hundredths of a percent, 0 to 10,000
     hours          in a year, 0 to 8,784 */
bool tezhebul_aspiration(uint8_t dust, uint16_t store, uint32_t concentration, uint32_t flow, uint16_t capture, uint16_t hours, uint64_t *out,
                         size_t out_length);

/* Vehicle groups: six emissions, CO, hydrocarbons, NO2, soot, SO2, lead. 11 where soot is not zero for petrol, or lead for diesel. False, and nothing written,
   where a slice has another length than below, or `out` has room for fewer than TEZHEBUL_GROUP_NUMBERS.

     category      1 car, 2 truck, 3 bus
     fuel          1 petrol, 2 diesel
     flags         TEZHEBUL_CONTROLLED where emission control is done, plus TEZHEBUL_HEATED of a heated stand; above 3 is out of range
     vehicles      1 to 10,000
     leaving       the most that leave in one hour, 0 to vehicles
     share         percent that leave in a day, 0 to 100
     running       the neutraliser's factor for run and idle, percent, 0 to 100
     warming       the same for warm-up
     idle          tenths of a minute, 0 to 250
     timed         the warm-up as the drivers timed it, tenths of a minute, 1 to 250, at every temperature; or 0 where it was not timed, and it lasts the minutes
                   of the papers' table, or the 1.5 of a heated stand
     distances     metres, 0 to 20,000: out from nearest, out from farthest, in to nearest, in to farthest
     days          worked in each month, January first, at most its length, February's 29
     temperatures  tenths of a degree Celsius, each month's mean, -600 to 600
     coefficients  ten-thousandths of a gram, 0 to 1,000,000: a row of seven for each pollutant in the order above; in a row, warm-up per minute in the warm,
                   transitional and cold period, run per kilometre in the same three, idle per minute */
#define TEZHEBUL_CONTROLLED 1
#define TEZHEBUL_HEATED 2
#define TEZHEBUL_DISTANCES 4
#define TEZHEBUL_MONTHS 12
#define TEZHEBUL_POLLUTANTS 6
#define TEZHEBUL_COEFFICIENTS (7 * TEZHEBUL_POLLUTANTS)

bool tezhebul_group(uint8_t category, uint8_t fuel, uint8_t flags, uint16_t vehicles, uint16_t leaving, uint8_t share, uint8_t running, uint8_t warming,
                    uint32_t idle, uint32_t timed, const uint32_t *distances, size_t distances_length, const uint8_t *days, size_t days_length,
                    const int16_t *temperatures, size_t temperatures_length, const uint32_t *coefficients, size_t coefficients_length, uint64_t *out,
                    size_t out_length);

/* Locomotives: three emissions, CO, NO2, soot. 14 where each field is in range and the five shares do not total 1,000. False, and nothing written, where `out`
   has room for fewer than TEZHEBUL_LOCOMOTIVE_NUMBERS.

     model           1 TGM6, 2 TGM4, 3 TGM3, 4 TU4 or TGK2
     idle .. full    thousandths of the time at idle, at 25 %, 50 %, 75 % of the power and at full power, 0 to 1,000 each
     hours           in a year, 0 to 8,784
     old             1 where it is over two years old, else 0
     zone            1 south of 44 degrees, 2 others, 3 north of 60 degrees */
bool tezhebul_locomotive(uint8_t model, uint16_t idle, uint16_t quarter, uint16_t half, uint16_t three_quarters, uint16_t full, uint16_t hours, uint8_t old,
                         uint8_t zone, uint64_t *out, size_t out_length);

#ifdef __cplusplus
}
#endif

#endif
