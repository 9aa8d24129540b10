// Empty vectors of C++, whose data may be null, lent by the header's idiom.
#include <zakvind.h>

#include <cstdio>
#include <vector>

int main()
{
    const std::vector<uint8_t> sheet;
    std::vector<uint8_t> text;
    std::vector<uint16_t> cells;
    zakvind_command_indices indices = {0, 5};
    const auto read = zakvind_read_sheet(ZAKVIND_LENT(const uint8_t, sheet.data()), sheet.size());
    const auto told = zakvind_report(ZAKVIND_LENT(const uint8_t, sheet.data()), sheet.size(), ZAKVIND_LENT(uint8_t, text.data()), text.size());
    const auto wider =
        zakvind_to_version_2(ZAKVIND_LENT(const uint8_t, sheet.data()), sheet.size(), ZAKVIND_LENT(uint8_t, text.data()), text.size());
    const auto back = zakvind_read_instances(ZAKVIND_LENT(const uint8_t, sheet.data()), sheet.size(),
                                             ZAKVIND_NONE(const uint8_t), 0, ZAKVIND_LENT(uint8_t, text.data()), text.size());
    const auto sent = zakvind_submit(&indices, ZAKVIND_LENT(uint8_t, text.data()), text.size(), ZAKVIND_NONE(uint8_t), 0,
                                     ZAKVIND_LENT(uint16_t, cells.data()), cells.size(), ZAKVIND_LENT(uint16_t, cells.data()), cells.size(),
                                     ZAKVIND_NONE(const uint32_t), 0, ZAKVIND_LENT(const uint16_t, cells.data()), cells.size());
    if (read.number != ZAKVIND_TRUNCATED || wider.number != read.number || told.number != ZAKVIND_OUTPUT_TOO_SHORT ||
        back.number != ZAKVIND_ACCEPTED || back.written != 0 || sent.number != ZAKVIND_ACCEPTED) {
        std::puts("C++: not as it must be: empty vectors");
        return 1;
    }
    std::puts("C++: empty vectors can be lent");
    return 0;
}
