// The header from C++: the calls link by their names, and an empty vector is lent as the header says.
#include "sharing.h"
#include <vector>

static const uint8_t *lent(const std::vector<uint8_t> &v) {
    static const uint8_t none = 0;
    return v.empty() ? &none : v.data();
}

int main() {
    const uint8_t counts[] = SHARING_DEFAULT_COUNTS;
    std::vector<uint8_t> message, keys(12, 9), shares(30);
    sharing_answer a = sharing_split_padded(
        SHARING_DEFAULT_N, SHARING_DEFAULT_R, SHARING_DEFAULT_Z, counts, sizeof counts, lent(message), message.size(),
        lent(keys), keys.size(), shares.data(), shares.size());
    if (a.refusal != SHARING_ACCEPTED || a.value != 6) return 1;
    switch (static_cast<sharing_refusal>(sharing_check(1, 0, 0, counts, sizeof counts).refusal)) {
    case SHARING_REFUSED_PARTIES:
        return gf256_add(1, 2) != 3 || sharing_gf256_add(1, 2) != 3;
    default:
        return 2;
    }
}
