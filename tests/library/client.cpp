// Prints the runs of sectors of one kind of the image that it reads, as `cdpatch list` does.
#include <cdpatch.h>
#include <cstdio>
#include <iostream>
#include <iterator>
#include <vector>

int main() {
    const std::vector<uint8_t> image{std::istreambuf_iterator<char>(std::cin), {}};
    const uint32_t sectors = static_cast<uint32_t>(image.size() / CDPATCH_SECTOR_SIZE);
    std::vector<cdpatch_record> records(sectors);
    uint8_t text[CDPATCH_LINE_SIZE];
    if (!cdpatch_survey(image.data(), sectors, 0, records.data(), sectors))
        return CDPATCH_STATUS_FAILED;
    for (uint32_t first = 0, next; first < sectors; first = next) {
        for (next = first + 1; next < sectors && records[next].kind == records[first].kind;)
            next++;
        std::fwrite(text, 1, cdpatch_list_line(first, next - 1, records[first].kind, text), stdout);
    }
    std::fwrite(text, 1, cdpatch_list_end(sectors, static_cast<uint16_t>(image.size() % CDPATCH_SECTOR_SIZE), text), stdout);
    return CDPATCH_STATUS_DONE;
}
