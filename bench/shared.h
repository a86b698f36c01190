/* What every peer shares: a case's line read and decided exactly, Table 3, and the records of reckon's output. */
#ifndef SHARED_H
#define SHARED_H

#include <stddef.h>
#include <stdint.h>

#ifdef __cplusplus
extern "C" {
#endif

/* The longer line and frame give their air pressure, in units of 10 Pa. */
enum { LINE = 44, FRAME = 22, LONG_LINE = 48, LONG_FRAME = 24, ANSWER = 77, PROBITS = 5 };

enum { STANDARD_AIR = 10130, LEAST_AIR = 5000, GREATEST_AIR = 11000 };

/* The physical constants that need no arithmetic: P0 in Pa where no air pressure is given, and C0 in m/s. */
enum { AIR = 10 * STANDARD_AIR, SOUND = 340 };

/* An accepted case. E = joules/parts J, times 3/4 where `aerosol` holds. The comparisons of Rx are already made. */
struct cloud {
    int range;         /* 1 to 6 */
    int state;         /* 0 gas, 1 heterogeneous */
    int aerosol;       /* heterogeneous and in ranges 2 to 6 */
    int near;          /* Rx below 0.2 (gas) or 0.25 (heterogeneous) */
    int under;         /* Rx below 0.34 */
    uint64_t joules;   /* below 2^64 */
    uint32_t parts;
    uint32_t mass;     /* grams */
    uint32_t distance; /* cm */
    uint32_t body;     /* kg */
    uint32_t air;      /* P0 in Pa */
};

/* A frame, of 22 bytes or 24. */
struct frame {
    uint8_t bytes[LONG_FRAME];
    size_t length;
};

/* The width rule of a pressure or an impulse: WAVE_WIDTH (upper - lower) is at most 2 WAVE_WIDTH + lower. */
#define WAVE_WIDTH 100000

/* Whole numbers around the seven values: Pa, Pa s, and thousandths of a probit. Lower end first. */
struct figures {
    int64_t pressure[2];
    int64_t impulse[2];
    int64_t probit[PROBITS][2];
};

/* The bytes that 44 or 48 characters spell; 0 where one of them is no hexadecimal digit. */
int spell(const uint8_t *line, size_t length, uint8_t frame[LONG_FRAME]);

/* Puts a cloud's receptor at a distance from 1 to 1,000,000 cm and compares Rx there: 7 where it is beyond, else 0. */
int move_receptor(struct cloud *c, uint32_t distance);

/* The refusal number of a frame, or 0 and its cloud; after refusal 7 there is a cloud too. */
int decide_frame(const uint8_t *frame, size_t length, struct cloud *c);

/* The refusal number of a line, or 0 and its cloud. */
int decide_line(const uint8_t *line, size_t length, struct cloud *c);

/* The reading of Table 3 at a probit in thousandths, in tenths of a percent. */
int damage(int64_t thousandths);

/* Where a reading stands in Table 3: 0 for 0, then 1 to 108; -1 for a number that is no reading. */
int rank_of_damage(int tenths);

/* Class of a substance from 0 to 75, and its beta in hundredths, 0 for none. */
int class_of(unsigned substance);
unsigned beta_of(unsigned substance);

/* Each peer supplies these two: constants made once, at so many bits where it has a choice, and one case's arithmetic. */
void prepare(long bits);
void work(const struct cloud *c, struct figures *f);

typedef void worker(const struct cloud *c, struct figures *f);

/* Reads lines from standard input to its end, and writes a record of each, as `work` figures it. 0, or 1 where a read or a write failed. */
int serve(worker *work);

#ifdef __cplusplus
}
#endif
#endif
