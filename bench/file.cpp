#include "file.hpp"

#include <algorithm>

namespace {

constexpr size_t RECORD_BYTES = 16, RECORDS = 31, RECORDS_AT = 8, HEAD_END = 12;
constexpr uint8_t MARK[4] = {0x4C, 0x47, 0x46, 0x32};

void put(uint8_t *bytes, size_t value)
{
    bytes[0] = static_cast<uint8_t>(value >> 8);
    bytes[1] = static_cast<uint8_t>(value);
}

uint16_t get(const uint8_t *bytes)
{
    return static_cast<uint16_t>(bytes[0] << 8 | bytes[1]);
}

void open_block(uint8_t *block, size_t number, size_t count)
{
    memset(block, 0, BLOCK_BYTES);
    memcpy(block, MARK, sizeof MARK);
    put(block + 4, number);
    put(block + 6, count);
}

void close_block(uint8_t *block, Check check)
{
    put(block + CHECK_AT, check(block));
}

void put_record(uint8_t *record, const Grant &grant)
{
    const Box &box = grant.box;
    const uint16_t values[] = {box.staff.from, box.staff.to, box.doors.from, box.doors.to, box.quarters.from, box.quarters.to};
    put(record, grant.number);
    record[2] = grant.rank;
    record[3] = grant.kind;
    for (size_t i = 0; i < 6; i++)
        put(record + 4 + 2 * i, values[i]);
}

Span get_span(const uint8_t *bytes)
{
    return {get(bytes), get(bytes + 2)};
}

Grant get_record(const uint8_t *record)
{
    const HalfOpen quarters{get(record + 12), get(record + 14)};
    return {get(record), record[2], record[3], {get_span(record + 4), get_span(record + 8), quarters}};
}

size_t blocks_for(size_t count)
{
    return 1 + (count + RECORDS - 1) / RECORDS;
}

bool filled(const uint8_t *block, size_t from)
{
    return std::all_of(block + from, block + CHECK_AT, [](uint8_t byte) { return byte == 0; });
}

bool wrong_length(size_t length)
{
    return length == 0 || length % BLOCK_BYTES != 0 || length > MOST_FILE_BYTES;
}

// Faults 12 and 11 of what every block has.
unsigned judge_frame(const uint8_t *block, size_t number, Check check)
{
    if (check(block) != get(block + CHECK_AT))
        return 12;
    return memcmp(block, MARK, sizeof MARK) != 0 || get(block + 4) != number ? 11 : 0;
}

unsigned judge_head(const uint8_t *block, size_t blocks, Check check)
{
    if (unsigned fault = judge_frame(block, 0, check))
        return fault;
    size_t count = get(block + 6);
    Span doors = get_span(block + 8);
    return count > MOST_GRANTS || blocks != blocks_for(count) || doors.from > doors.to || !filled(block, HEAD_END) ? 11 : 0;
}

bool sound(const Grant &grant, uint16_t last, Span doors)
{
    const Box &box = grant.box;
    return grant.number > last && grant.kind <= 1 && box.staff.from <= box.staff.to && box.doors.from <= box.doors.to &&
           box.quarters.from < box.quarters.to && is_senior_enough(grant) && overlap(box.doors, doors);
}

// A block of records; `last` is the number before its first and becomes its last.
unsigned judge_records(const uint8_t *block, size_t number, size_t count, Span doors, uint16_t &last, Check check)
{
    if (unsigned fault = judge_frame(block, number, check))
        return fault;
    if (get(block + 6) != count || !filled(block, RECORDS_AT + RECORD_BYTES * count))
        return 11;
    for (size_t i = 0; i < count; i++) {
        Grant grant = get_record(block + RECORDS_AT + RECORD_BYTES * i);
        if (!sound(grant, last, doors))
            return 13;
        last = grant.number;
    }
    return 0;
}

} // namespace

size_t write_file(Span doors, const Grant *grants, size_t count, uint8_t *bytes, Check check)
{
    open_block(bytes, 0, count);
    put(bytes + 8, doors.from);
    put(bytes + 10, doors.to);
    close_block(bytes, check);
    uint8_t *block = bytes + BLOCK_BYTES;
    for (size_t first = 0; first < count; first += RECORDS, block += BLOCK_BYTES) {
        size_t here = std::min(RECORDS, count - first);
        open_block(block, 1 + first / RECORDS, here);
        for (size_t i = 0; i < here; i++)
            put_record(block + RECORDS_AT + RECORD_BYTES * i, grants[first + i]);
        close_block(block, check);
    }
    return BLOCK_BYTES * blocks_for(count);
}

unsigned judge_file(const uint8_t *file, size_t length, Check check)
{
    if (wrong_length(length))
        return 10;
    if (unsigned fault = judge_head(file, length / BLOCK_BYTES, check))
        return fault;
    uint16_t last = 0;
    for (size_t first = 0, number = 1; first < count_of(file); first += RECORDS, number++) {
        size_t here = std::min(RECORDS, count_of(file) - first);
        if (unsigned fault = judge_records(file + BLOCK_BYTES * number, number, here, get_span(file + 8), last, check))
            return fault;
    }
    return 0;
}

unsigned judge_block(const uint8_t *file, size_t length, size_t number, Check check)
{
    if (wrong_length(length) || number >= length / BLOCK_BYTES)
        return 10;
    const uint8_t *block = file + BLOCK_BYTES * number;
    if (unsigned fault = judge_frame(block, number, check))
        return fault;
    if (number == 0)
        return filled(block, HEAD_END) ? 0 : 11;
    size_t count = get(block + 6);
    bool last = number + 1 == length / BLOCK_BYTES;
    bool counted = last ? count >= 1 && count <= RECORDS : count == RECORDS;
    return counted && filled(block, RECORDS_AT + RECORD_BYTES * count) ? 0 : 11;
}

size_t count_of(const uint8_t *file)
{
    return get(file + 6);
}

Grant record_of(const uint8_t *file, size_t index)
{
    return get_record(file + BLOCK_BYTES * (1 + index / RECORDS) + RECORDS_AT + RECORD_BYTES * (index % RECORDS));
}
