/*
 * labintugmo_steps.h: the steps without a check, for labintugmo.hpp alone.
 *
 * Each takes the parameters of the call of labintugmo.h whose name it has, and gives the same
 * events and the same result on tables that are sound for the settings. That they are is not
 * checked: on others, or on slices of other lengths, a step may read and write memory that is
 * not lent to it. The class labintugmo::Cache knows it of the tables that it owns; any other
 * program makes the calls of labintugmo.h.
 */
#ifndef LABINTUGMO_STEPS_H
#define LABINTUGMO_STEPS_H

#include "labintugmo.h"

#ifdef __cplusplus
extern "C" {
#endif

size_t labintugmo_step_read(const uint32_t *settings, size_t settings_length,
                            uint64_t *longs, size_t longs_length,
                            uint32_t *words, size_t words_length,
                            uint8_t *marks, size_t marks_length,
                            uint64_t address, uint32_t ticket,
                            uint8_t *events, size_t events_length);

size_t labintugmo_step_write(const uint32_t *settings, size_t settings_length,
                             uint64_t *longs, size_t longs_length,
                             uint32_t *words, size_t words_length,
                             uint8_t *marks, size_t marks_length,
                             uint64_t address, uint32_t mask,
                             uint8_t *events, size_t events_length);

size_t labintugmo_step_send(const uint32_t *settings, size_t settings_length,
                            uint64_t *longs, size_t longs_length,
                            uint32_t *words, size_t words_length,
                            uint8_t *marks, size_t marks_length,
                            uint8_t *events, size_t events_length);

size_t labintugmo_step_fill(const uint32_t *settings, size_t settings_length,
                            uint64_t *longs, size_t longs_length,
                            uint32_t *words, size_t words_length,
                            uint8_t *marks, size_t marks_length,
                            uint64_t address,
                            uint8_t *events, size_t events_length);

size_t labintugmo_step_tick(const uint32_t *settings, size_t settings_length,
                            uint64_t *longs, size_t longs_length,
                            uint32_t *words, size_t words_length,
                            uint8_t *marks, size_t marks_length,
                            uint32_t cycle,
                            uint8_t *events, size_t events_length);

#ifdef __cplusplus
}
#endif

#endif
