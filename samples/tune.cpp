// Tunes the DAC twice, with the second tuning inside the first period, plays three periods and tells the count of high clocks of each: what a test of station
// presets does. C++11.
#include "dirgeflint.h"
#include <algorithm>
#include <cstddef>
#include <cstdint>
#include <iostream>
#include <stdexcept>
#include <vector>

class Dac {
public:
    Dac() { dirgeflint_dac_reset(&record); }

    // The low half first: it is the high write that completes the pair.
    void tune(std::uint8_t coarse, std::uint8_t fine)
    {
        dirgeflint_dac_write_low(&record, fine);
        dirgeflint_dac_write_high(&record, coarse);
    }

    std::vector<std::uint8_t> play(std::uint32_t clocks)
    {
        std::vector<std::uint8_t> levels(std::min<std::size_t>(clocks, DIRGEFLINT_PERIOD) + 1); // never empty, so data() is never null
        const dirgeflint_answer answer = dirgeflint_dac_play(&record, clocks, levels.data(), levels.size());
        if (answer.number != DIRGEFLINT_ACCEPTED)
            throw std::invalid_argument(dirgeflint_reason(answer.number));
        levels.resize(clocks);
        return levels;
    }

    unsigned share() const { return 128u * record.in_force.coarse + record.in_force.fine; }

    // How many clocks were high from the last first clock of a period on; once the period is over that is share().
    unsigned high() const { return record.high; }

private:
    dirgeflint_dac record;
};

static void tell(int period, const Dac &dac)
{
    std::cout << "period " << period << ": T " << dac.share() << " high " << dac.high() << '\n';
}

int main()
{
    Dac dac;
    dac.tune(1, 3);
    dac.play(5000);
    dac.tune(64, 0); // waits for the next period
    dac.play(DIRGEFLINT_PERIOD - 5000);
    tell(1, dac);
    for (int n = 2; n <= 3; n++) {
        dac.play(DIRGEFLINT_PERIOD);
        tell(n, dac);
    }
    try {
        dac.play(DIRGEFLINT_PERIOD + 1);
    } catch (const std::invalid_argument &reason) {
        std::cout << "one clock too many: " << reason.what() << '\n';
    }
    return 0;
}
