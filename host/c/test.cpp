// The header in C++: its functions are found, its numbers are numbers, and a file of no bytes is lent without a null pointer.
#include "rev.h"

#include <vector>

int main()
{
    std::vector<uint8_t> file(1), out(REV_LONGEST); // data() of an empty vector may be null
    bool fits = rev_listing(file.data(), 0, out.data(), out.size()) == 12 && rev_dump(file.data(), 0, out.data(), out.size()) == 10;
    bool refused = rev_listing(file.data(), 0, out.data(), 0) == REV_TOO_LONG && rev_dump(file.data(), 0, out.data(), 0) == REV_TOO_LONG;
    bool written = rev_write_opening(0, 8, true, 7, 5550100, out.data(), out.size()) == REV_WRITTEN && out[6] == 0x87 &&
                   rev_record_length(out.data()) == 15 &&
                   rev_write_request(2, false, 0, 0, out.data(), out.size()) == REV_WRITTEN && rev_record_length(out.data()) == 14 &&
                   rev_write_message(5, 0, 0, 0, 112, false, 1, 0, true, 1, 0, 0, out.data(), REV_RECORD) == REV_WRITTEN &&
                   rev_record_length(out.data()) == 31 &&
                   rev_write_slot(63, out.data(), 31, out.data() + 64, REV_RECORD) == REV_WRITTEN &&
                   rev_record_length(out.data() + 64) == REV_RECORD && rev_write_access(4, 0, out.data(), 5) == REV_TOO_LONG &&
                   rev_write_expiry(out.data(), 4) == REV_WRITTEN && rev_write_time(86401, out.data(), 0) == REV_BAD_FIELD + 256 * 1 &&
                   rev_record_length(out.data()) == 4;
    bool same = rev_same_number(true, 7, 5550123, true, 7, 5550123) && !rev_same_number(true, 7, 5550123, false, 7, 5550123);
    const uint8_t parameter[] = {0x32, 0x01, 0x91};
    bool carried = REV_NUMBER(rev_read_parameter(parameter, sizeof parameter, 5, 0, out.data(), REV_ENTRIES)) == REV_WRITTEN &&
                   rev_write_parameter(out.data(), 11, out.data() + 64, REV_PARAMETER) == REV_BAD_FIELD + 256 * 3;
    return fits && refused && written && same && carried ? 0 : 1;
}
