// The header from C++. From the top folder:
//
//     c++ -std=c++17 -Wall -Wextra -Werror -o target/test-cpp c/test.cpp target/staticlib/libbreakwarp.a && target/test-cpp
#include "breakwarp.h"

#include <array>
#include <cstdio>
#include <string>

int main()
{
    const std::string sheet = "3\naen\n4\nanna\n12\nannann[ae]nann[an]\n";
    const std::string due = "hits 3\n0\n3\n8\nbrute 20 0 0\nkmp 13 4 0\nbm 14 3 0\nsunday 15 0 0\n"
                            "shiftand 0 0 12\nhybrid 1 0 12\n";
    static std::array<std::uint8_t, BREAKWARP_MAX_REPORT> report;
    const auto length = breakwarp_report(reinterpret_cast<const std::uint8_t *>(sheet.data()), sheet.size(),
                                         report.data(), report.size());
    if (length < 0 || std::string(report.begin(), report.begin() + length) != due) {
        std::puts("c++: the worked sheet has another report");
        return 1;
    }
    const std::array<std::uint32_t, 2> pattern{1, 4};
    const std::array<std::uint32_t, 5> text{2, 2, 2, 1, 4};
    std::array<std::uint32_t, 5> hits{};
    std::array<std::uint64_t, 3> work{};
    const auto total = breakwarp_hybrid(3, pattern.data(), pattern.size(), text.data(), text.size(), hits.data(),
                                        hits.size(), work.data(), work.size());
    if (total != 1 || hits[0] != 3 || work != std::array<std::uint64_t, 3>{2, 0, 2}) {
        std::puts("c++: an in eeean is not found as it should be");
        return 1;
    }
    std::array<std::uint64_t, 2> found{};
    const auto there = breakwarp_first(3, pattern.data(), pattern.size(), text.data(), text.size(), found.data(),
                                       found.size());
    if (there != 1 || found != std::array<std::uint64_t, 2>{5, 3}) {
        std::puts("c++: the first an in eeean is not found as it should be");
        return 1;
    }
    const std::array<std::uint32_t, 2> unsure{7, 7}, under{3, 6};
    std::array<std::uint32_t, 2> choice{};
    const auto bound = breakwarp_bound(3, unsure.data(), unsure.size(), under.data(), under.size(), hits.data(), 1);
    const auto chosen = breakwarp_bound_choice(3, unsure.data(), unsure.size(), under.data(), under.size(), 0,
                                               choice.data(), choice.size());
    if (bound != 1 || hits[0] != 0 || chosen != 1 || choice != std::array<std::uint32_t, 2>{1, 1}) {
        std::puts("c++: ** over [ae][en] is not bound as it should be");
        return 1;
    }
    std::array<std::uint32_t, 2> sets{};
    const auto shared = breakwarp_reasons(3, unsure.data(), unsure.size(), under.data(), under.size(), 0, sets.data(),
                                          sets.size());
    if (shared != 2 || sets != under) {
        std::puts("c++: ** over [ae][en] does not share what it should");
        return 1;
    }
    const std::array<std::uint32_t, 3> wrong{1, 2, 8};
    const auto refused = breakwarp_brute(3, pattern.data(), pattern.size(), wrong.data(), wrong.size(), hits.data(),
                                         hits.size(), work.data(), work.size());
    static_assert(BREAKWARP_NUMBER(-5 - 256 * 2) == 5 && BREAKWARP_PLACE(-5 - 256 * 2) == 2, "taken apart");
    if (BREAKWARP_NUMBER(refused) != BREAKWARP_REFUSED_TEXT || BREAKWARP_PLACE(refused) != 2) {
        std::puts("c++: a wrong text letter is not refused at its place");
        return 1;
    }
    std::puts("c++: 6 checks");
    return 0;
}
