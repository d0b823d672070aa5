/*
 * A harder baseline for the plays of the DAC, in place of that of fast.c, which includes this: a part of a sub-period is
 * laid by its two ends, a few whole sub-periods from one made beforehand, many from one of each kind.
 */
/* Whether the fine half adds a clock to a sub-period: its lowest set bit, turned round, is the fine bit that serves it. */
FAST_INLINE uint32_t fast_added(uint64_t all, uint32_t sub)
{
    return (uint32_t)(all >> 56) * (sub & -sub) >> 6 & 1;
}

FAST_INLINE uint32_t fast_coarse(uint64_t all)
{
    return (uint32_t)(all >> 48 & 127);
}

/* So many levels: bit 7 of a count that goes down, set as long as the clock is below the number of high ones. */
FAST_INLINE void fast_count(uint8_t *levels, int run, uint8_t count)
{
    for (int i = 0; i < run; i++)
        levels[i] = count-- >> 7;
}

/* The same for a run that is not known beforehand: its start and its end, which may overlap. */
FAST_INLINE void fast_ends(uint8_t *levels, uint32_t run, uint32_t count, uint32_t half)
{
    fast_count(levels, (int)half, (uint8_t)count);
    fast_count(levels + run - half, (int)half, (uint8_t)(count - run + half));
}

/* Clocks of one sub-period: lays their levels and returns how many are high. */
FAST_INLINE uint32_t fast_within(uint64_t all, uint32_t position, uint32_t run, uint8_t *levels)
{
    uint32_t clock = position & 127, high = fast_coarse(all) + fast_added(all, position >> 7);
    uint32_t count = 127 + high - clock;
    if (run >= 64)
        fast_ends(levels, run, count, 64);
    else if (run >= 32)
        fast_ends(levels, run, count, 32);
    else if (run >= 16)
        fast_ends(levels, run, count, 16);
    else if (run >= 8)
        fast_ends(levels, run, count, 8);
    else if (run >= 4)
        fast_ends(levels, run, count, 4);
    else if (run >= 2)
        fast_ends(levels, run, count, 2);
    else
        fast_count(levels, 1, (uint8_t)count);
    return fast_least(high, clock + run) - fast_least(high, clock);
}

/* Whole sub-periods, many of them: both kinds are made ready. Returns how many of their clocks are high. */
FAST_APART uint32_t fast_many(uint64_t all, uint32_t sub, uint32_t end, uint8_t *levels)
{
    uint32_t coarse = fast_coarse(all), high = coarse * (end - sub);
    uint8_t plain[128], longer[128];
    fast_count(plain, 128, (uint8_t)(127 + coarse));
    fast_count(longer, 128, (uint8_t)(128 + coarse));
    for (; sub < end; sub++, levels += 128)
        if (fast_added(all, sub)) {
            memcpy(levels, longer, 128);
            high++;
        } else
            memcpy(levels, plain, 128);
    return high;
}

/* A few of them: all are laid alike, and the clock after the coarse ones once more. */
FAST_INLINE uint32_t fast_few(uint64_t all, uint32_t sub, uint32_t end, uint8_t *levels)
{
    uint32_t coarse = fast_coarse(all), high = coarse * (end - sub);
    uint8_t plain[128];
    fast_count(plain, 128, (uint8_t)(127 + coarse));
    for (; sub < end; sub++, levels += 128) {
        uint32_t added = fast_added(all, sub);
        memcpy(levels, plain, 128);
        levels[coarse] = (uint8_t)added;
        high += added;
    }
    return high;
}

FAST_INLINE uint32_t fast_sub_periods(uint64_t all, uint32_t sub, uint32_t end, uint8_t *levels)
{
    return end - sub < 8 ? fast_few(all, sub, end, levels) : fast_many(all, sub, end, levels);
}

/* At a first clock the pair completed comes into force, and the count begins anew. */
FAST_INLINE void fast_first(uint32_t position, uint64_t *all, uint32_t *high)
{
    if (position == 0) {
        *all = (*all & 0x0000FFFFFFFFFFFFu) | *all << 16 >> 48 << 48;
        *high = 0;
    }
}

FAST_INLINE dirgeflint_answer fast_played(dirgeflint_dac *dac, uint64_t all, uint32_t position, uint32_t high)
{
    fast_store(dac, (all & ~(uint64_t)0xFFFF) | (position & 16383), high);
    return fast_answer(0, 0, high & 16383);
}

/* A play from a first clock, or into another sub-period: the rest of this one, whole ones, and the start of the last. */
FAST_APART dirgeflint_answer fast_across(dirgeflint_dac *dac, uint32_t clocks, uint8_t *levels, uint64_t all,
                                         uint32_t high)
{
    uint32_t position = all & 16383, run = -position & 127;
    if (run != 0) {
        high += fast_within(all, position, run, levels);
        levels += run;
        clocks -= run;
        position = (position + run) & 16383;
    }
    while (clocks >= 128) {
        uint32_t sub = position >> 7, end = fast_least(sub + (clocks >> 7), 128);
        fast_first(position, &all, &high);
        high += fast_sub_periods(all, sub, end, levels);
        run = (end - sub) * 128;
        levels += run;
        clocks -= run;
        position = (position + run) & 16383;
    }
    if (clocks != 0) {
        fast_first(position, &all, &high);
        high += fast_within(all, position, clocks, levels);
    }
    return fast_played(dac, all, position + clocks, high);
}

/* A play of whole sub-periods of one period. */
FAST_APART dirgeflint_answer fast_whole(dirgeflint_dac *dac, uint32_t clocks, uint8_t *levels, uint64_t all,
                                        uint32_t high)
{
    uint32_t position = all & 16383, sub = position >> 7, end = sub + (clocks >> 7);
    fast_first(position, &all, &high);
    high += fast_sub_periods(all, sub, end, levels);
    return fast_played(dac, all, end * 128, high);
}

static dirgeflint_answer fast_dac_play(dirgeflint_dac *dac, uint32_t clocks, uint8_t *levels, size_t levels_length)
{
    if (clocks > 16384 || clocks > levels_length)
        return fast_answer(14, 0, 0);
    uint32_t high = dac->high;
    if (clocks == 0)
        return fast_answer(0, 0, high & 16383);
    uint64_t all = fast_load(dac);
    uint32_t position = all & 16383;
    if (position == 0 || clocks > 128 - (position & 127)) {
        if (((position | clocks) & 127) == 0 && position + clocks <= 16384)
            return fast_whole(dac, clocks, levels, all, high);
        return fast_across(dac, clocks, levels, all, high);
    }
    high += fast_within(all, position, clocks, levels);
    return fast_played(dac, all, position + clocks, high);
}
