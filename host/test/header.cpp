// C++ takes the header, twice over, and finds the entry under its C name.
#include "../tlilcueyoh.h"
#include "../tlilcueyoh.h"

int main()
{
    bool same = tlilcueyoh_version() == TLILCUEYOH_VERSION;
    return same && tlilcueyoh_block(0, 0, nullptr, 0, nullptr, 0, nullptr, 0) == TLILCUEYOH_UNKNOWN_CIPHER ? 0 : 1;
}
