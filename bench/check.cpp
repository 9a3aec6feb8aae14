#include "check.hpp"

namespace {

constexpr uint32_t MODULUS = 65521;

// The power of each byte and, before them, that of the byte 1 in front. In the order of the bytes, so that both are read forward.
struct Powers {
    uint16_t of[1 + CHECK_AT] = {};

    constexpr Powers()
    {
        uint32_t power = 1;
        for (size_t i = CHECK_AT + 1; i-- > 0; power = power * 256 % MODULUS)
            of[i] = static_cast<uint16_t>(power);
    }
};

constexpr Powers POWERS;

// Below 2^32 for up to 256 bytes.
uint32_t sum_of_products(const uint8_t *bytes, const uint16_t *powers, size_t count)
{
    uint32_t sum = 0;
    for (size_t i = 0; i < count; i++)
        sum += static_cast<uint32_t>(bytes[i]) * powers[i];
    return sum;
}

} // namespace

uint32_t check_by_byte(const uint8_t *block)
{
    uint32_t check = 1;
    for (size_t i = 0; i < CHECK_AT; i++)
        check = (check * 256 + block[i]) % MODULUS;
    return check;
}

uint32_t check_by_table(const uint8_t *block)
{
    constexpr size_t HALF = CHECK_AT / 2;
    const uint16_t *powers = POWERS.of + 1;
    uint64_t sum = POWERS.of[0];
    sum += sum_of_products(block, powers, HALF);
    sum += sum_of_products(block + HALF, powers + HALF, CHECK_AT - HALF);
    return static_cast<uint32_t>(sum % MODULUS);
}
